@"\3Cb\3E" = global i32 5

declare i32 @getchar()
declare i32 @putchar(i32)

define i32 @"<script>alert('1')</script>"(i32 %0) {
  %"a&amp;b" = add i32 %0, 1
  %"\22onload=" = mul i32 %"a&amp;b", 2
  %"\FF\C3" = load i32, ptr @"\3Cb\3E"
  %sum = add i32 %"\22onload=", %"\FF\C3"
  %c = icmp slt i32 %sum, 9
  br i1 %c, label %"</table>", label %more
"</table>":
  %out = call i32 @putchar(i32 %sum)
  ret i32 %sum
more:
  %in = call i32 @getchar()
  ret i32 %in
}

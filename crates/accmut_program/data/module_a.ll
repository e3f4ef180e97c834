define i32 @f(i32 %a, i32 %b) {
  %c = add i32 %a, %b
  %d = icmp sgt i32 %c, 10
  %e = select i1 %d, i32 1, i32 0
  ret i32 %e
}

; A name that is defined twice: refused.
define i8 @f(i8 %a) {
  %b = add i8 %a, 1
  %b = add i8 %a, 2
  ret i8 %b
}

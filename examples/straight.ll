; Functions of one block. A register without a name of its own is numbered, with the parameters, from 0.
define i8 @dead(i8 %a) {
  %1 = add i8 %a, 1   ; nothing that is returned needs this
  %2 = sub i8 %a, 2
  ret i8 %2
}

define i32 @masks(i32 %x, i32 %y) {
  %low = and i32 %x, 65535
  %high = and i32 %y, -65536
  %both = or i32 %low, %high
  %unused = xor i32 %both, undef
  ret i32 %both
}

define i1 @always() {
  ret i1 true
}

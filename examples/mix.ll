; Mixes the numbers below %n into one, until none is left or neither flag is set.
define i32 @mix(i32 %n, i1 %odd, i1 %late) {
entry:
  br label %loop

loop:
  %i = phi i32 [ 0, %entry ], [ %next, %loop ]
  %hash = phi i32 [ 7, %entry ], [ %mixed, %loop ]
  %double = mul i32 %hash, 2
  %not = xor i32 %i, -1
  %less = add i32 %not, 10
  %mixed = xor i32 %double, %less
  %next = add i32 %i, 1
  %below = icmp ult i32 %next, %n
  %either = select i1 %odd, i1 true, i1 %late
  %again = and i1 %below, %either
  br i1 %again, label %loop, label %exit

exit:
  ret i32 %mixed
}

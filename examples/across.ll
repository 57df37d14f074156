; The complement of %key is the same in each round, so that another pass has moved it out of the loop, away from what
; reads it.
define i32 @mix(i32 %key, i32 %n) {
entry:
  %not = xor i32 %key, -1
  br label %loop

loop:
  %i = phi i32 [ 0, %entry ], [ %next, %loop ]
  %hash = phi i32 [ %not, %entry ], [ %mixed, %loop ]
  %back = xor i32 %not, -1
  %sum = add i32 %hash, %back
  %less = add i32 %not, 10
  %mixed = mul i32 %sum, %less
  %next = add i32 %i, 1
  %below = icmp ult i32 %next, %n
  br i1 %below, label %loop, label %exit

exit:
  ret i32 %mixed
}

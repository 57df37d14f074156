; The sum of the numbers below %n, and at least of 0. Nothing that is returned needs how often the loop went round.
define i32 @sum(i32 %n) {
entry:
  br label %loop

loop:
  %i = phi i32 [ 0, %entry ], [ %next, %loop ]
  %sum = phi i32 [ 0, %entry ], [ %more, %loop ]
  %rounds = phi i32 [ 0, %entry ], [ %round, %loop ]
  %round = add i32 %rounds, 1
  %more = add i32 %sum, %i
  %next = add i32 %i, 1
  %again = icmp ult i32 %next, %n
  br i1 %again, label %loop, label %exit

exit:
  ret i32 %more
}

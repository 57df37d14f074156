; The loop is entered where %n is less than itself.
define i32 @rounds(i32 %n) {
entry:
  %some = icmp ult i32 %n, %n
  br i1 %some, label %loop, label %exit

loop:
  %i = phi i32 [ 0, %entry ], [ %next, %loop ]
  %next = add i32 %i, 1
  %again = icmp ult i32 %next, %n
  br i1 %again, label %loop, label %exit

exit:
  %count = phi i32 [ 0, %entry ], [ %next, %loop ]
  ret i32 %count
}

define i32 @pack(i32 %high, i32 %low) {
  %up = shl i32 %high, 8
  %byte = and i32 %low, 255
  %pair = add i32 %up, %byte
  %sum = add i32 %up, %low
  %both = xor i32 %pair, %sum
  ret i32 %both
}

define i1 @empty(i32 %bits) {
  %tagged = or i32 %bits, 1
  %frozen = freeze i32 %tagged
  %none = icmp eq i32 %tagged, 0
  %nothing = icmp eq i32 %frozen, 0
  %either = or i1 %none, %nothing
  ret i1 %either
}

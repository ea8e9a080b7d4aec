define i64 @main(i64 %n) {
entry:
%x = alloca i64
%c = icmp slt i64 %n, 0
br i1 %c, label %left, label %right
left:
store i64 1, ptr %x
br label %join
right:
store i64 2, ptr %x
br label %join
join:
%y = load i64, ptr %x
ret i64 %y
}

define i64 @main(i64 %n) {
entry:
%x = alloca [2 x i64]
store [2 x i64] zeroinitializer, ptr %x
%p = getelementptr inbounds i64, ptr %x, i64 1
store i64 %n, ptr %p
%y = load i64, ptr %p
ret i64 %y
}

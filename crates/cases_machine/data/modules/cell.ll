define i64 @main(i64 %n) {
entry:
%x = alloca i64
store i64 %n, ptr %x
%y = load i64, ptr %x
ret i64 %y
}

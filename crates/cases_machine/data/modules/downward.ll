define i64 @main(i64 %n) {
entry:
%r = call i64 @below(i64 %n)
ret i64 %r
}
define i64 @below(i64 %n) {
entry:
ret i64 %n
}

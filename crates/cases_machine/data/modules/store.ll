@a = global [1 x i64] zeroinitializer
define i64 @main() {
entry:
store i64 1, ptr @a
ret i64 0
}

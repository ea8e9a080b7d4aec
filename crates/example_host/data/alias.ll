@a = global [4 x i64] zeroinitializer
define void @put(ptr noalias dereferenceable(8) %p) {
;! writes %p 0 1
;! writes @a 0 4
;! budget 0 3
entry:
;! left 0 3
store i64 1, ptr %p
store i64 2, ptr @a
ret void
}
define i64 @main() {
;! writes @a 0 4
;! budget 0 5
entry:
;! left 0 5
call void @put(ptr @a) ; refused, 204: @put names @a itself
ret i64 0
}

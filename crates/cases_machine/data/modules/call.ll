@a = global [4 x i64] zeroinitializer
@b = global [2 x i64] zeroinitializer
define void @fill(ptr noalias dereferenceable(16) %p, i64 %k) {
;! requires %k >= 0
;! requires %k <= 3
;! writes %p 0 2
;! reads @a %k %k+1
entry:
ret void
}
define i64 @main(i64 %n) {
;
entry:
;
ret i64 0
}

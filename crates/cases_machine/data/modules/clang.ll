@a = global [8 x i64] zeroinitializer
@b = global [8 x i64] zeroinitializer
define i64 @f(i64 %x) {
;! requires %x >= 0
;! requires %x <= 7
;! budget 0 1
entry:
;! left 0 1
ret i64 %x
}
define i64 @main(i64 %n) {
;! requires %n >= 0
;! requires %n <= 7
;! writes @a 0 8
;! budget 0 20
entry:
;! left 0 20
...
}

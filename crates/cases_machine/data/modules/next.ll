define i64 @next(i64 %x) {
;! requires %x >= 0
;! requires %x <= 9
;! ensures %.ret >= %x+1
;! ensures %.ret <= 10
;! budget 0 2
entry:
;! left 0 2
%y = add nsw i64 %x, 1
ret i64 %y
}
define i64 @main(i64 %n) {
;! requires %n >= 0
;! requires %n <= 9
;! budget 0 5
entry:
;! left 0 5
%r = call i64 @next(i64 %n)
;! shows %r >= 1
%z = sub nsw i64 %r, 1
ret i64 %z
}

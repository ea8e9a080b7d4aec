define i64 @main(i64 %a, i64 %b) {
;! requires %b >= -1
;! requires %b <= -1
;! budget 0 2
entry:
;! left 0 2
%q = sdiv i64 %a, %b ; refused, 502: -2^63 / -1
ret i64 %q
}

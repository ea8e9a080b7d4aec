define i64 @main(i64 %a, i64 %b) {
;
;
;! budget 0 2
entry:
;! left 0 2
;
;
ret i64 %a
}

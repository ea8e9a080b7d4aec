; The author's own line needs three facts: it gets steps, as a `keeps` would.
@a = global [8 x i64] zeroinitializer

define i64 @main(i64 %p, i64 %q, i64 %r, i64 %s) {
  ;! requires %p >= 0
  ;! requires %p <= %q
  ;! requires %q <= %r
  ;! requires %r <= %s
  ;! requires %s <= 7
  ;! writes @a 0 8
entry:
  ;! shows %p <= %s
  %at = getelementptr inbounds i64, ptr @a, i64 %p
  store i64 1, ptr %at
  ret i64 0
}

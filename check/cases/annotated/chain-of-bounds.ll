; A chain of bounds, each said six times, the closest last: of what is left to be shown, with the same registers, the search keeps only what says most.
@a = global [8 x i64] zeroinitializer

define i64 @main(i64 %p, i64 %q, i64 %r, i64 %s) {
  ;! requires %p >= 0
  ;! requires %s <= 7
  ;! requires %p <= %q+180
  ;! requires %p <= %q+144
  ;! requires %p <= %q+108
  ;! requires %p <= %q+72
  ;! requires %p <= %q+36
  ;! requires %p <= %q
  ;! requires %q <= %r+30
  ;! requires %q <= %r+24
  ;! requires %q <= %r+18
  ;! requires %q <= %r+12
  ;! requires %q <= %r+6
  ;! requires %q <= %r
  ;! requires %r <= %s+5
  ;! requires %r <= %s+4
  ;! requires %r <= %s+3
  ;! requires %r <= %s+2
  ;! requires %r <= %s+1
  ;! requires %r <= %s
  ;! writes @a 0 8
entry:
  %at = getelementptr inbounds i64, ptr @a, i64 %p
  store i64 1, ptr %at
  ret i64 0
}

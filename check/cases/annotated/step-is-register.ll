; The counter goes up by a register that is at least 1.
define i64 @main(i64 %n, i64 %step) {
  ;! requires %n >= 0
  ;! requires %n <= 64
  ;! requires %step >= 1
  ;! requires %step <= 8
entry:
  br label %head
head:
  %i = phi i64 [ 0, %entry ], [ %next, %body ]
  %more = icmp slt i64 %i, %n
  br i1 %more, label %body, label %out
body:
  %next = add nsw i64 %i, %step
  br label %head
out:
  ret i64 %n
}

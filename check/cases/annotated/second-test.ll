; The loop's first test bounds nothing, since it compares with what each round loads; the second one counts the rounds.
@least = global [1 x i64] zeroinitializer

define i64 @main(i64 %most) {
  ;! requires %most >= 0
  ;! requires %most <= 100
  ;! reads @least 0 1
entry:
  br label %head
head:
  %w = phi i64 [ %most, %entry ], [ %next, %body ]
  %at = getelementptr inbounds i64, ptr @least, i64 0
  %least = load i64, ptr %at
  %fits = icmp sge i64 %w, %least
  br i1 %fits, label %second, label %out
second:
  %more = icmp sge i64 %w, 0
  br i1 %more, label %body, label %out
body:
  %next = add nsw i64 %w, -1
  br label %head
out:
  ret i64 %most
}

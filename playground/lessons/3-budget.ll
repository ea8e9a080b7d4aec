; The sum of the first %n of 64 cells. The budget is too small.
@a = global [64 x i64] zeroinitializer
define i64 @main(i64 %n) {
  ;! requires %n >= 0
  ;! requires %n <= 64
  ;! reads @a 0 64
  ;! budget 0 300
entry:
  ;! left 0 7*%n+4
  br label %head
head:
  ;! keeps %i >= 0
  ;! keeps %i <= %n
  ;! keeps %n <= 64
  ;! left 0 7*%n+3-7*%i
  %i = phi i64 [ 0, %entry ], [ %k, %body ]
  %sum = phi i64 [ 0, %entry ], [ %t, %body ]
  %more = icmp slt i64 %i, %n
  br i1 %more, label %body, label %done
body:
  ;! keeps %i >= 0
  ;! keeps %i+1 <= %n
  ;! keeps %n <= 64
  ;! left 0 7*%n+1-7*%i
  %p = getelementptr inbounds i64, ptr @a, i64 %i
  %x = load i64, ptr %p
  %t = add i64 %sum, %x
  %k = add nsw i64 %i, 1
  br label %head
done:
  ;! left 0 1
  ret i64 %sum
}

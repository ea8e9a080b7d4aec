; A parallel for over the cells from %lo to before %hi, by halves: each call hands its left half to a child and takes the right half. At depth
; 0 a loop does the cells one by one; here cell i becomes i * i.
@a = global [64 x i64] zeroinitializer

define void @each(ptr noalias dereferenceable(512) %a, i64 %lo, i64 %hi, i64 %depth) {
  ;! requires %lo >= 0
  ;! requires %lo <= %hi
  ;! requires %hi <= 64
  ;! requires %depth >= 0
  ;! requires %depth <= 4
  ;! writes %a %lo %hi
  ;! measure %depth max 4
  ;! budget 2 455
entry:
  ;! left 2 455
  %s = call token @llvm.syncregion.start()
  %split = icmp sgt i64 %depth, 0
  br i1 %split, label %halve, label %small
small:
  ;! keeps %lo >= 0
  ;! keeps %lo <= %hi
  ;! keeps %hi <= 64
  ;! left 0 7*%hi+4-7*%lo
  br label %head
head:
  ;! keeps %lo >= 0
  ;! keeps %lo <= %i
  ;! keeps %i <= %hi
  ;! keeps %hi <= 64
  ;! left 0 7*%hi+3-7*%i
  %i = phi i64 [ %lo, %small ], [ %i1, %body ]
  %more = icmp slt i64 %i, %hi
  br i1 %more, label %body, label %done
body:
  ;! keeps %lo >= 0
  ;! keeps %lo <= %i
  ;! keeps %i+1 <= %hi
  ;! keeps %hi <= 64
  ;! left 0 7*%hi+1-7*%i
  %p = getelementptr inbounds i64, ptr %a, i64 %i
  %v = mul i64 %i, %i
  store i64 %v, ptr %p
  %i1 = add nsw i64 %i, 1
  br label %head
done:
  ;! left 0 1
  ret void
halve:
  ;! keeps %lo >= 0
  ;! keeps %lo <= %hi
  ;! keeps %hi <= 64
  ;! keeps %depth >= 1
  ;! keeps %depth <= 4
  ;! left 2 10
  %n = sub nsw i64 %hi, %lo
  ;! shows %n >= 0
  %h = sdiv i64 %n, 2
  ;! shows 2*%h <= %n
  ;! shows %h <= %n
  ;! shows %lo+%h <= %hi
  %mid = add nsw i64 %lo, %h
  ;! shows %mid <= %hi
  ;! shows %mid >= %lo
  %d = sub nsw i64 %depth, 1
  detach within %s, label %left, label %right
left:
  ;! keeps %lo >= 0
  ;! keeps %lo <= %mid
  ;! keeps %mid <= %hi
  ;! keeps %hi <= 64
  ;! keeps %d >= 0
  ;! keeps %d <= 3
  ;! keeps %d+1 <= %depth
  ;! left 1 2
  ;! foot writes %a %lo %mid
  call void @each(ptr %a, i64 %lo, i64 %mid, i64 %d)
  reattach within %s, label %right
right:
  ;! keeps %lo >= 0
  ;! keeps %lo <= %mid
  ;! keeps %mid <= %hi
  ;! keeps %hi <= 64
  ;! keeps %d >= 0
  ;! keeps %d <= 3
  ;! keeps %d+1 <= %depth
  ;! pending %s writes %a %lo %mid
  ;! left 1 3
  call void @each(ptr %a, i64 %mid, i64 %hi, i64 %d)
  sync within %s, label %both
both:
  ;! left 0 1
  ret void
}

define i64 @main(i64 %lo, i64 %hi) {
  ;! requires %lo >= 0
  ;! requires %lo <= %hi
  ;! requires %hi <= 64
  ;! writes @a %lo %hi
  ;! budget 0 14108
entry:
  ;! left 0 14108
  call void @each(ptr @a, i64 %lo, i64 %hi, i64 4)
  %n = sub nsw i64 %hi, %lo
  ret i64 %n
}

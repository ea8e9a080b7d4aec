; The sum of 64 cells by halves: a child sums up the left half into a cell of its parent's own, and the parent the right half.
; At depth 0 a loop sums up what is left.
@a = global [64 x i64] zeroinitializer

define i64 @sum(ptr noalias dereferenceable(512) %a, i64 %lo, i64 %hi, i64 %depth) {
  ;! requires %lo >= 0
  ;! requires %lo <= %hi
  ;! requires %hi <= 64
  ;! requires %depth >= 0
  ;! requires %depth <= 3
  ;! reads %a %lo %hi
  ;! measure %depth max 3
  ;! budget 2 456
entry:
  ;! left 2 456
  %x = alloca i64
  %s = call token @llvm.syncregion.start()
  %split = icmp sgt i64 %depth, 0
  br i1 %split, label %halve, label %small
small:
  ;! keeps %lo >= 0
  ;! keeps %lo <= %hi
  ;! keeps %hi <= 64
  ;! left 0 7*%hi+4-7*%lo
  br label %head
head:
  ;! keeps %lo >= 0
  ;! keeps %lo <= %j
  ;! keeps %j <= %hi
  ;! keeps %hi <= 64
  ;! left 0 7*%hi+3-7*%j
  %j = phi i64 [ %lo, %small ], [ %k, %body ]
  %sum = phi i64 [ 0, %small ], [ %t, %body ]
  %more = icmp slt i64 %j, %hi
  br i1 %more, label %body, label %done
body:
  ;! keeps %lo >= 0
  ;! keeps %lo <= %j
  ;! keeps %j+1 <= %hi
  ;! keeps %hi <= 64
  ;! left 0 7*%hi+1-7*%j
  %p = getelementptr inbounds i64, ptr %a, i64 %j
  %v = load i64, ptr %p
  %t = add i64 %sum, %v
  %k = add nsw i64 %j, 1
  br label %head
done:
  ;! left 0 1
  ret i64 %sum
halve:
  ;! keeps %lo >= 0
  ;! keeps %lo <= %hi
  ;! keeps %hi <= 64
  ;! keeps %depth >= 1
  ;! keeps %depth <= 3
  ;! left 2 13
  %n = sub nsw i64 %hi, %lo
  ;! shows %n >= 0
  %h = sdiv i64 %n, 2
  ;! shows 2*%h <= %n
  ;! shows %h <= %n
  ;! shows %lo+%h <= %hi
  %mid = add nsw i64 %lo, %h
  ;! shows %mid <= %hi
  ;! shows %mid >= %lo
  %d = sub nsw i64 %depth, 1
  detach within %s, label %left, label %right
left:
  ;! keeps %lo >= 0
  ;! keeps %lo <= %mid
  ;! keeps %mid <= %hi
  ;! keeps %hi <= 64
  ;! keeps %d >= 0
  ;! keeps %d <= 2
  ;! keeps %d+1 <= %depth
  ;! left 1 3
  ;! foot reads %a %lo %mid
  ;! foot writes %x 0 1
  %l = call i64 @sum(ptr %a, i64 %lo, i64 %mid, i64 %d)
  store i64 %l, ptr %x
  reattach within %s, label %right
right:
  ;! keeps %lo >= 0
  ;! keeps %lo <= %mid
  ;! keeps %mid <= %hi
  ;! keeps %hi <= 64
  ;! keeps %d >= 0
  ;! keeps %d <= 2
  ;! keeps %d+1 <= %depth
  ;! pending %s reads %a %lo %mid
  ;! pending %s writes %x 0 1
  ;! left 1 5
  %r = call i64 @sum(ptr %a, i64 %mid, i64 %hi, i64 %d)
  sync within %s, label %both
both:
  ;! left 0 3
  %y = load i64, ptr %x
  %z = add i64 %y, %r
  ret i64 %z
}

define i64 @main() {
  ;! reads @a 0 64
  ;! budget 0 6842
entry:
  ;! left 0 6842
  %r = call i64 @sum(ptr @a, i64 0, i64 64, i64 3)
  ret i64 %r
}

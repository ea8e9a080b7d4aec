; An array is filled by halves: a child fills the left one, the parent the right one.
@a = global [64 x i64] zeroinitializer

define void @fill(ptr noalias dereferenceable(512) %p, i64 %lo, i64 %hi, i64 %depth) {
  ;! requires %lo >= 0
  ;! requires %lo <= %hi
  ;! requires %hi <= 64
  ;! requires %depth >= 0
  ;! requires %depth <= 6
  ;! writes %p %lo %hi
  ;! measure %depth max 6
  ;! budget 2 13
entry:
  ;! left 2 13
  %s = call token @llvm.syncregion.start()
  %more = icmp sgt i64 %depth, 0
  br i1 %more, label %halve, label %leaf
leaf:
  ;! keeps %lo >= 0
  ;! keeps %hi <= 64
  ;! left 0 5
  %some = icmp slt i64 %lo, %hi
  br i1 %some, label %cell, label %none
cell:
  ;! keeps %lo >= 0
  ;! keeps %lo+1 <= %hi
  ;! keeps %hi <= 64
  ;! left 0 3
  %q = getelementptr inbounds i64, ptr %p, i64 %lo
  store i64 %lo, ptr %q
  ret void
none:
  ;! left 0 1
  ret void
halve:
  ;! keeps %lo >= 0
  ;! keeps %lo <= %hi
  ;! keeps %hi <= 64
  ;! keeps %depth >= 1
  ;! keeps %depth <= 6
  ;! left 2 10
  %n = sub nsw i64 %hi, %lo
  ;! shows %n >= 0
  %h = sdiv i64 %n, 2
  ;! shows 2*%h <= %n
  ;! shows %h <= %n
  ;! shows %lo+%h <= %hi
  %mid = add nsw i64 %lo, %h
  ;! shows %mid <= %hi
  ;! shows %mid >= %lo
  %d = sub nsw i64 %depth, 1
  detach within %s, label %left, label %right
left:
  ;! keeps %lo >= 0
  ;! keeps %lo <= %mid
  ;! keeps %mid <= %hi
  ;! keeps %hi <= 64
  ;! keeps %d >= 0
  ;! keeps %d <= 5
  ;! keeps %d+1 <= %depth
  ;! left 1 2
  ;! foot writes %p %lo %mid
  call void @fill(ptr %p, i64 %lo, i64 %mid, i64 %d)
  reattach within %s, label %right
right:
  ;! keeps %lo >= 0
  ;! keeps %lo <= %mid
  ;! keeps %mid <= %hi
  ;! keeps %hi <= 64
  ;! keeps %d >= 0
  ;! keeps %d <= 5
  ;! keeps %d+1 <= %depth
  ;! pending %s writes %p %lo %mid
  ;! left 1 3
  call void @fill(ptr %p, i64 %mid, i64 %hi, i64 %d)
  sync within %s, label %done
done:
  ;! left 0 1
  ret void
}

define i64 @main() {
  ;! writes @a 0 64
  ;! budget 0 1653
entry:
  ;! left 0 1653
  call void @fill(ptr @a, i64 0, i64 64, i64 6)
  ret i64 0
}

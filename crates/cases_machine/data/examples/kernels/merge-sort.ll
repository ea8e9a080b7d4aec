; Sorts the first %n cells of @a. A call sorts its left half in a child and its right half itself, then merges both. What falls from
; call to call is a depth and not the length: a depth of 6 halves 64 cells down to one.
@a = global [64 x i64] zeroinitializer
@spare = global [64 x i64] zeroinitializer

define void @merge(ptr noalias dereferenceable(512) %a, ptr noalias dereferenceable(512) %t, i64 %lo, i64 %mid, i64 %hi) {
  ;! requires %lo >= 0
  ;! requires %lo <= %mid
  ;! requires %mid <= %hi
  ;! requires %hi <= 64
  ;! reads %a %lo %hi
  ;! writes %t %lo %hi
  ;! budget 0 1284
entry:
  ;! left 0 20*%hi+4-20*%lo
  ;! shows %mid >= 0
  br label %head
head:
  ;! keeps %lo >= 0
  ;! keeps %lo <= %i
  ;! keeps %i <= %mid
  ;! keeps %mid <= %j
  ;! keeps %j <= %hi
  ;! keeps %hi <= 64
  ;! keeps %mid >= 0
  ;! keeps %k+%mid >= %i+%j
  ;! keeps %k+%mid <= %i+%j
  ;! keeps %k >= %lo
  ;! keeps %k <= %hi
  ;! left 0 20*%hi+3-20*%k
  %i = phi i64 [ %lo, %entry ], [ %i2, %next ]
  %j = phi i64 [ %mid, %entry ], [ %j2, %next ]
  %k = phi i64 [ %lo, %entry ], [ %k1, %next ]
  %more = icmp slt i64 %k, %hi
  br i1 %more, label %body, label %done
body:
  ;! keeps %lo >= 0
  ;! keeps %lo <= %i
  ;! keeps %i <= %mid
  ;! keeps %mid <= %j
  ;! keeps %j <= %hi
  ;! keeps %hi <= 64
  ;! keeps %mid >= 0
  ;! keeps %k+%mid >= %i+%j
  ;! keeps %k+%mid <= %i+%j
  ;! keeps %k >= %lo
  ;! keeps %k+1 <= %hi
  ;! left 0 20*%hi+1-20*%k
  %onleft = icmp slt i64 %i, %mid
  br i1 %onleft, label %some, label %none
none:
  ;! keeps %lo >= 0
  ;! keeps %lo <= %i
  ;! keeps %i <= %mid
  ;! keeps %i >= %mid
  ;! keeps %mid <= %j
  ;! keeps %hi <= 64
  ;! keeps %mid >= 0
  ;! keeps %k+%mid >= %i+%j
  ;! keeps %k+%mid <= %i+%j
  ;! keeps %k >= %lo
  ;! keeps %k+1 <= %hi
  ;! left 0 20*%hi-20*%k-8
  ;! shows %j <= %k
  ;! shows %j+1 <= %hi
  br label %right
some:
  ;! keeps %lo >= 0
  ;! keeps %lo <= %i
  ;! keeps %i+1 <= %mid
  ;! keeps %mid <= %j
  ;! keeps %j <= %hi
  ;! keeps %hi <= 64
  ;! keeps %mid >= 0
  ;! keeps %k+%mid >= %i+%j
  ;! keeps %k+%mid <= %i+%j
  ;! keeps %k >= %lo
  ;! keeps %k+1 <= %hi
  ;! left 0 20*%hi-20*%k-1
  %onright = icmp slt i64 %j, %hi
  br i1 %onright, label %both, label %left
both:
  ;! keeps %lo >= 0
  ;! keeps %lo <= %i
  ;! keeps %i+1 <= %mid
  ;! keeps %mid <= %j
  ;! keeps %j+1 <= %hi
  ;! keeps %hi <= 64
  ;! keeps %mid >= 0
  ;! keeps %k+%mid >= %i+%j
  ;! keeps %k+%mid <= %i+%j
  ;! keeps %k >= %lo
  ;! keeps %k+1 <= %hi
  ;! left 0 20*%hi-20*%k-3
  ;! shows %i <= %j
  ;! shows %i+1 <= %hi
  ;! shows %lo <= %j
  %pi = getelementptr inbounds i64, ptr %a, i64 %i
  %x = load i64, ptr %pi
  %pj = getelementptr inbounds i64, ptr %a, i64 %j
  %y = load i64, ptr %pj
  %first = icmp sle i64 %x, %y
  br i1 %first, label %left, label %right
left:
  ;! keeps %lo >= 0
  ;! keeps %lo <= %i
  ;! keeps %i+1 <= %mid
  ;! keeps %mid <= %j
  ;! keeps %j <= %hi
  ;! keeps %hi <= 64
  ;! keeps %mid >= 0
  ;! keeps %k+%mid >= %i+%j
  ;! keeps %k+%mid <= %i+%j
  ;! keeps %k >= %lo
  ;! keeps %k+1 <= %hi
  ;! left 0 20*%hi-20*%k-9
  ;! shows %i+1 <= %j
  ;! shows %i+1 <= %hi
  %ql = getelementptr inbounds i64, ptr %a, i64 %i
  %l = load i64, ptr %ql
  %i1 = add nsw i64 %i, 1
  br label %next
right:
  ;! keeps %lo >= 0
  ;! keeps %lo <= %i
  ;! keeps %i <= %mid
  ;! keeps %mid <= %j
  ;! keeps %j+1 <= %hi
  ;! keeps %hi <= 64
  ;! keeps %mid >= 0
  ;! keeps %k+%mid >= %i+%j
  ;! keeps %k+%mid <= %i+%j
  ;! keeps %k >= %lo
  ;! keeps %k+1 <= %hi
  ;! left 0 20*%hi-20*%k-9
  ;! shows %j >= %i
  ;! shows %j >= %lo
  %qr = getelementptr inbounds i64, ptr %a, i64 %j
  %r = load i64, ptr %qr
  %j1 = add nsw i64 %j, 1
  br label %next
next:
  ;! keeps %lo >= 0
  ;! keeps %lo <= %i2
  ;! keeps %i2 <= %mid
  ;! keeps %mid <= %j2
  ;! keeps %j2 <= %hi
  ;! keeps %hi <= 64
  ;! keeps %mid >= 0
  ;! keeps %k+%mid+1 >= %i2+%j2
  ;! keeps %k+%mid+1 <= %i2+%j2
  ;! keeps %k >= %lo
  ;! keeps %k+1 <= %hi
  ;! left 0 20*%hi-20*%k-13
  %i2 = phi i64 [ %i1, %left ], [ %i, %right ]
  %j2 = phi i64 [ %j, %left ], [ %j1, %right ]
  %v = phi i64 [ %l, %left ], [ %r, %right ]
  %q = getelementptr inbounds i64, ptr %t, i64 %k
  store i64 %v, ptr %q
  %k1 = add nsw i64 %k, 1
  br label %head
done:
  ;! left 0 1
  ret void
}

define void @copy(ptr noalias dereferenceable(512) %a, ptr noalias dereferenceable(512) %t, i64 %lo, i64 %hi) {
  ;! requires %lo >= 0
  ;! requires %lo <= %hi
  ;! requires %hi <= 64
  ;! reads %t %lo %hi
  ;! writes %a %lo %hi
  ;! budget 0 516
entry:
  ;! left 0 8*%hi+4-8*%lo
  br label %head
head:
  ;! keeps %lo >= 0
  ;! keeps %k >= %lo
  ;! keeps %k <= %hi
  ;! keeps %hi <= 64
  ;! left 0 8*%hi+3-8*%k
  %k = phi i64 [ %lo, %entry ], [ %k1, %body ]
  %more = icmp slt i64 %k, %hi
  br i1 %more, label %body, label %done
body:
  ;! keeps %lo >= 0
  ;! keeps %k >= %lo
  ;! keeps %k+1 <= %hi
  ;! keeps %hi <= 64
  ;! left 0 8*%hi+1-8*%k
  %p = getelementptr inbounds i64, ptr %t, i64 %k
  %x = load i64, ptr %p
  %q = getelementptr inbounds i64, ptr %a, i64 %k
  store i64 %x, ptr %q
  %k1 = add nsw i64 %k, 1
  br label %head
done:
  ;! left 0 1
  ret void
}

define void @sort(ptr noalias dereferenceable(512) %a, ptr noalias dereferenceable(512) %t, i64 %lo, i64 %hi, i64 %depth) {
  ;! requires %lo >= 0
  ;! requires %lo <= %hi
  ;! requires %hi <= 64
  ;! requires %depth >= 0
  ;! requires %depth <= 6
  ;! writes %a %lo %hi
  ;! writes %t %lo %hi
  ;! measure %depth max 6
  ;! budget 2 1815
entry:
  ;! left 2 1815
  %s = call token @llvm.syncregion.start()
  %split = icmp sgt i64 %depth, 0
  br i1 %split, label %halve, label %small
small:
  ;! left 0 1
  ret void
halve:
  ;! keeps %lo >= 0
  ;! keeps %lo <= %hi
  ;! keeps %hi <= 64
  ;! keeps %depth >= 1
  ;! keeps %depth <= 6
  ;! left 2 1812
  %n = sub nsw i64 %hi, %lo
  ;! shows %n >= 0
  %h = sdiv i64 %n, 2
  ;! shows 2*%h <= %n
  ;! shows %h <= %n
  ;! shows %lo+%h <= %hi
  %mid = add nsw i64 %lo, %h
  ;! shows %mid <= %hi
  ;! shows %mid >= %lo
  %d = sub nsw i64 %depth, 1
  detach within %s, label %left, label %right
left:
  ;! keeps %lo >= 0
  ;! keeps %lo <= %mid
  ;! keeps %mid <= %hi
  ;! keeps %hi <= 64
  ;! keeps %d >= 0
  ;! keeps %d <= 5
  ;! keeps %d+1 <= %depth
  ;! left 1 2
  ;! foot writes %a %lo %mid
  ;! foot writes %t %lo %mid
  call void @sort(ptr %a, ptr %t, i64 %lo, i64 %mid, i64 %d)
  reattach within %s, label %right
right:
  ;! keeps %lo >= 0
  ;! keeps %lo <= %mid
  ;! keeps %mid <= %hi
  ;! keeps %hi <= 64
  ;! keeps %d >= 0
  ;! keeps %d <= 5
  ;! keeps %d+1 <= %depth
  ;! pending %s writes %a %lo %mid
  ;! pending %s writes %t %lo %mid
  ;! left 1 1805
  call void @sort(ptr %a, ptr %t, i64 %mid, i64 %hi, i64 %d)
  sync within %s, label %both
both:
  ;! keeps %lo >= 0
  ;! keeps %lo <= %mid
  ;! keeps %mid <= %hi
  ;! keeps %hi <= 64
  ;! left 0 1803
  ;! shows %lo <= %hi
  call void @merge(ptr %a, ptr %t, i64 %lo, i64 %mid, i64 %hi)
  call void @copy(ptr %a, ptr %t, i64 %lo, i64 %hi)
  ret void
}

define i64 @main(i64 %n) {
  ;! requires %n >= 0
  ;! requires %n <= 64
  ;! writes @a 0 64
  ;! writes @spare 0 64
  ;! budget 0 230507
entry:
  ;! left 0 230507
  call void @sort(ptr @a, ptr @spare, i64 0, i64 %n, i64 6)
  ret i64 %n
}

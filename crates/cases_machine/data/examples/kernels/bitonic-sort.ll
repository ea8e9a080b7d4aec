; Sorts the 1,024 cells of @a by Batcher's bitonic network: each call sorts its left half upwards in a child and its right half downwards
; itself, and merges what it then has. %flip is 0 for upwards and -1 for downwards. Cells come into order where %hi-%lo is 2 to the power of
; %depth, as it is in @main's call.
; Of its annotations an author wrote 40, and `tapirvm annotate` the others.
@a = global [1024 x i64] zeroinitializer

define void @merge(ptr noalias dereferenceable(8192) %a, i64 %lo, i64 %hi, i64 %flip, i64 %depth) {
  ;! requires %lo >= 0
  ;! requires %lo <= %hi
  ;! requires %hi <= 1024
  ;! requires %depth >= 0
  ;! requires %depth <= 10
  ;! writes %a %lo %hi
  ;! measure %depth max 10
  ;! budget 2 9232
entry:
  ;! left 2 9*%hi-9*%lo+16
  %s = call token @llvm.syncregion.start()
  %some = icmp sgt i64 %depth, 0
  br i1 %some, label %begin, label %none
none:
  ;! left 0 1
  ret void
begin:
  ;! keeps %lo >= 0
  ;! keeps %lo <= %hi
  ;! keeps %hi <= 1024
  ;! keeps %depth <= 10
  ;! keeps %depth >= 1
  ;! left 2 9*%hi+13-9*%lo
  %n = sub nsw i64 %hi, %lo
  ;! shows %n >= 0
  %h = sdiv i64 %n, 2
  ;! shows %h >= 0
  ;! shows %lo+2*%h <= %hi
  ;! shows %lo+%h <= %hi
  %mid = add nsw i64 %lo, %h
  ;! shows %mid >= %lo
  ;! shows %mid <= %hi
  ;! shows %mid+%h <= %hi
  %d = sub nsw i64 %depth, 1
  br label %head
head:
  ;! keeps %lo >= 0
  ;! keeps %hi <= 1024
  ;! keeps %depth <= 10
  ;! keeps %depth >= 1
  ;! keeps %h >= 0
  ;! keeps %h+%mid <= %hi
  ;! keeps %d+1 <= %depth
  ;! keeps %depth <= %d+1
  ;! keeps %i >= %lo
  ;! keeps %i <= %mid
  ;! left 2 18*%mid+8-18*%i
  %i = phi i64 [ %lo, %begin ], [ %i1, %next ]
  %more = icmp slt i64 %i, %mid
  br i1 %more, label %pair, label %halves
pair:
  ;! keeps %lo >= 0
  ;! keeps %hi <= 1024
  ;! keeps %depth <= 10
  ;! keeps %lo <= %i
  ;! keeps %depth >= 1
  ;! keeps %h >= 0
  ;! keeps %mid <= %hi
  ;! keeps %h+%mid <= %hi
  ;! keeps %i+1 <= %mid
  ;! keeps %d+1 <= %depth
  ;! keeps %depth <= %d+1
  ;! left 2 18*%mid+6-18*%i
  ;! shows %i >= 0
  ;! shows %i+1 <= %hi
  ;! shows %i+%h+1 <= %hi
  %j = add nsw i64 %i, %h
  ;! shows %j >= %i
  ;! shows %j >= 0
  ;! shows %j+1 <= %hi
  %p = getelementptr inbounds i64, ptr %a, i64 %i
  %x = load i64, ptr %p
  %q = getelementptr inbounds i64, ptr %a, i64 %j
  %y = load i64, ptr %q
  %fx = xor i64 %x, %flip
  %fy = xor i64 %y, %flip
  %wrong = icmp sgt i64 %fx, %fy
  br i1 %wrong, label %swap, label %next
swap:
  ;! keeps %lo >= 0
  ;! keeps %hi <= 1024
  ;! keeps %depth <= 10
  ;! keeps %lo <= %i
  ;! keeps %depth >= 1
  ;! keeps %h >= 0
  ;! keeps %h+%mid <= %hi
  ;! keeps %i+1 <= %mid
  ;! keeps %i >= 0
  ;! keeps %i+1 <= %hi
  ;! keeps %i <= %j
  ;! keeps %j+1 <= %hi
  ;! keeps %d+1 <= %depth
  ;! keeps %depth <= %d+1
  ;! left 2 18*%mid-18*%i-3
  %sp = getelementptr inbounds i64, ptr %a, i64 %i
  store i64 %y, ptr %sp
  %sq = getelementptr inbounds i64, ptr %a, i64 %j
  store i64 %x, ptr %sq
  br label %next
next:
  ;! keeps %lo >= 0
  ;! keeps %hi <= 1024
  ;! keeps %depth <= 10
  ;! keeps %lo <= %i
  ;! keeps %depth >= 1
  ;! keeps %h >= 0
  ;! keeps %h+%mid <= %hi
  ;! keeps %i+1 <= %mid
  ;! keeps %i+1 <= %hi
  ;! keeps %d+1 <= %depth
  ;! keeps %depth <= %d+1
  ;! left 2 18*%mid-18*%i-8
  %i1 = add nsw i64 %i, 1
  br label %head
halves:
  ;! keeps %lo >= 0
  ;! keeps %hi <= 1024
  ;! keeps %depth <= 10
  ;! keeps %depth >= 1
  ;! keeps %lo <= %mid
  ;! keeps %mid <= %hi
  ;! keeps %d+1 <= %depth
  ;! keeps %depth <= %d+1
  ;! left 2 6
  detach within %s, label %left, label %right
left:
  ;! keeps %lo >= 0
  ;! keeps %hi <= 1024
  ;! keeps %depth <= 10
  ;! keeps %depth >= 1
  ;! keeps %lo <= %mid
  ;! keeps %mid <= %hi
  ;! keeps %d+1 <= %depth
  ;! keeps %depth <= %d+1
  ;! left 1 2
  ;! foot writes %a %lo %mid
  call void @merge(ptr %a, i64 %lo, i64 %mid, i64 %flip, i64 %d)
  reattach within %s, label %right
right:
  ;! keeps %lo >= 0
  ;! keeps %hi <= 1024
  ;! keeps %depth <= 10
  ;! keeps %depth >= 1
  ;! keeps %lo <= %mid
  ;! keeps %mid <= %hi
  ;! keeps %d+1 <= %depth
  ;! keeps %depth <= %d+1
  ;! pending %s writes %a %lo %mid
  ;! left 1 3
  call void @merge(ptr %a, i64 %mid, i64 %hi, i64 %flip, i64 %d)
  sync within %s, label %done
done:
  ;! left 0 1
  ret void
}

define void @sort(ptr noalias dereferenceable(8192) %a, i64 %lo, i64 %hi, i64 %flip, i64 %depth) {
  ;! requires %lo >= 0
  ;! requires %lo <= %hi
  ;! requires %hi <= 1024
  ;! requires %depth >= 0
  ;! requires %depth <= 10
  ;! writes %a %lo %hi
  ;! measure %depth max 10
  ;! budget 2 18897918
entry:
  ;! left 2 18897918
  %s = call token @llvm.syncregion.start()
  %some = icmp sgt i64 %depth, 0
  br i1 %some, label %halves, label %none
none:
  ;! left 0 1
  ret void
halves:
  ;! keeps %lo >= 0
  ;! keeps %lo <= %hi
  ;! keeps %hi <= 1024
  ;! keeps %depth <= 10
  ;! keeps %depth >= 1
  ;! left 2 18897915
  %n = sub nsw i64 %hi, %lo
  ;! shows %n >= 0
  %h = sdiv i64 %n, 2
  ;! shows 2*%h <= %n
  ;! shows %h <= %n
  ;! shows %lo+%h <= %hi
  %mid = add nsw i64 %lo, %h
  ;! shows %mid >= %lo
  ;! shows %mid <= %hi
  %d = sub nsw i64 %depth, 1
  detach within %s, label %left, label %right
left:
  ;! keeps %lo >= 0
  ;! keeps %hi <= 1024
  ;! keeps %depth <= 10
  ;! keeps %depth >= 1
  ;! keeps %lo <= %mid
  ;! keeps %mid <= %hi
  ;! keeps %d+1 <= %depth
  ;! keeps %depth <= %d+1
  ;! left 1 2
  ;! foot writes %a %lo %mid
  call void @sort(ptr %a, i64 %lo, i64 %mid, i64 0, i64 %d)
  reattach within %s, label %right
right:
  ;! keeps %lo >= 0
  ;! keeps %hi <= 1024
  ;! keeps %depth <= 10
  ;! keeps %depth >= 1
  ;! keeps %lo <= %mid
  ;! keeps %mid <= %hi
  ;! keeps %d+1 <= %depth
  ;! keeps %depth <= %d+1
  ;! pending %s writes %a %lo %mid
  ;! left 1 18897908
  call void @sort(ptr %a, i64 %mid, i64 %hi, i64 -1, i64 %d)
  sync within %s, label %both
both:
  ;! keeps %lo >= 0
  ;! keeps %lo <= %hi
  ;! keeps %hi <= 1024
  ;! keeps %depth <= 10
  ;! keeps %depth >= 1
  ;! left 0 18897906
  call void @merge(ptr %a, i64 %lo, i64 %hi, i64 %flip, i64 %depth)
  ret void
}

define i64 @main() {
  ;! writes @a 0 1024
  ;! budget 0 38684038149
entry:
  ;! left 0 38684038149
  call void @sort(ptr @a, i64 0, i64 1024, i64 0, i64 10)
  %x = load i64, ptr @a
  ret i64 %x
}

; Smooths 64 cells %t times, forth and back: the cell i of the other array becomes a[i-1] + 2*a[i] + a[i+1]; both ends stay as they are.
; A child does a cell. All children of a step read the whole of one array, and a sync stands between steps.
@a = global [64 x i64] zeroinitializer
@b = global [64 x i64] zeroinitializer

define void @step(ptr noalias dereferenceable(512) %p, ptr noalias dereferenceable(512) %q) {
  ;! reads %p 0 64
  ;! writes %q 0 64
  ;! budget 0 1190
entry:
  ;! left 0 1190
  %s = call token @llvm.syncregion.start()
  %first = load i64, ptr %p
  store i64 %first, ptr %q
  %pl = getelementptr inbounds i64, ptr %p, i64 63
  %last = load i64, ptr %pl
  %ql = getelementptr inbounds i64, ptr %q, i64 63
  store i64 %last, ptr %ql
  br label %head
head:
  ;! keeps %i >= 1
  ;! keeps %i <= 63
  ;! pending %s reads %p 0 64
  ;! pending %s writes %q 1 %i
  ;! left 0 1201-19*%i
  %i = phi i64 [ 1, %entry ], [ %i1, %next ]
  %more = icmp slt i64 %i, 63
  br i1 %more, label %fork, label %done
fork:
  ;! keeps %i >= 1
  ;! keeps %i <= 62
  ;! pending %s reads %p 0 64
  ;! pending %s writes %q 1 %i
  ;! left 0 1199-19*%i
  detach within %s, label %cell, label %next
cell:
  ;! keeps %i >= 1
  ;! keeps %i <= 62
  ;! left 0 14
  ;! foot reads %p %i-1 %i+2
  ;! foot writes %q %i %i+1
  %l = sub nsw i64 %i, 1
  %pleft = getelementptr inbounds i64, ptr %p, i64 %l
  %x = load i64, ptr %pleft
  %pmid = getelementptr inbounds i64, ptr %p, i64 %i
  %y = load i64, ptr %pmid
  %r = add nsw i64 %i, 1
  %pright = getelementptr inbounds i64, ptr %p, i64 %r
  %z = load i64, ptr %pright
  %y2 = shl i64 %y, 1
  %xz = add i64 %x, %z
  %v = add i64 %xz, %y2
  %qi = getelementptr inbounds i64, ptr %q, i64 %i
  store i64 %v, ptr %qi
  reattach within %s, label %next
next:
  ;! keeps %i >= 1
  ;! keeps %i <= 62
  ;! pending %s reads %p 0 64
  ;! pending %s writes %q 1 %i+1
  ;! left 0 1184-19*%i
  %i1 = add nsw i64 %i, 1
  br label %head
done:
  ;! pending %s reads %p 0 64
  ;! pending %s writes %q 1 %i
  ;! left 0 2
  sync within %s, label %out
out:
  ;! left 0 1
  ret void
}

define i64 @main(i64 %t) {
  ;! requires %t >= 0
  ;! requires %t <= 8
  ;! writes @a 0 64
  ;! writes @b 0 64
  ;! budget 0 19094
entry:
  ;! left 0 2386*%t+6
  br label %head
head:
  ;! keeps %i >= 0
  ;! keeps %i <= %t
  ;! keeps %t <= 8
  ;! left 0 2386*%t+5-2386*%i
  %i = phi i64 [ 0, %entry ], [ %i1, %body ]
  %more = icmp slt i64 %i, %t
  br i1 %more, label %body, label %done
body:
  ;! keeps %i >= 0
  ;! keeps %i+1 <= %t
  ;! keeps %t <= 8
  ;! left 0 2386*%t+3-2386*%i
  call void @step(ptr @a, ptr @b)
  call void @step(ptr @b, ptr @a)
  %i1 = add nsw i64 %i, 1
  br label %head
done:
  ;! left 0 3
  %p = getelementptr inbounds i64, ptr @a, i64 32
  %x = load i64, ptr %p
  ret i64 %x
}

; Prefix sums in place, in three phases: each chunk of 8 cells sums up its own, the totals of the chunks are summed up, and
; each chunk adds the total of what stands before it. The result is the sum of all cells.
@a = global [64 x i64] zeroinitializer
@total = global [8 x i64] zeroinitializer

define void @sums(ptr noalias dereferenceable(512) %a, ptr noalias dereferenceable(64) %total, i64 %c, i64 %lo, i64 %hi) {
  ;! requires %c >= 0
  ;! requires %c <= 7
  ;! requires %lo >= 0
  ;! requires %lo <= %hi
  ;! requires %hi <= %lo+8
  ;! requires %hi <= 64
  ;! writes %a %lo %hi
  ;! writes %total %c %c+1
  ;! budget 0 70
entry:
  ;! left 0 8*%hi+6-8*%lo
  br label %head
head:
  ;! keeps %c >= 0
  ;! keeps %c <= 7
  ;! keeps %lo >= 0
  ;! keeps %lo <= %j
  ;! keeps %j <= %hi
  ;! keeps %hi <= 64
  ;! left 0 8*%hi+5-8*%j
  %j = phi i64 [ %lo, %entry ], [ %k, %body ]
  %sum = phi i64 [ 0, %entry ], [ %t, %body ]
  %more = icmp slt i64 %j, %hi
  br i1 %more, label %body, label %done
body:
  ;! keeps %c >= 0
  ;! keeps %c <= 7
  ;! keeps %lo >= 0
  ;! keeps %lo <= %j
  ;! keeps %j+1 <= %hi
  ;! keeps %hi <= 64
  ;! left 0 8*%hi+3-8*%j
  %p = getelementptr inbounds i64, ptr %a, i64 %j
  %x = load i64, ptr %p
  %t = add i64 %sum, %x
  store i64 %t, ptr %p
  %k = add nsw i64 %j, 1
  br label %head
done:
  ;! keeps %c >= 0
  ;! keeps %c <= 7
  ;! left 0 3
  %q = getelementptr inbounds i64, ptr %total, i64 %c
  store i64 %sum, ptr %q
  ret void
}

define void @shift(ptr noalias dereferenceable(512) %a, ptr noalias dereferenceable(64) %total, i64 %c, i64 %lo, i64 %hi) {
  ;! requires %c >= 0
  ;! requires %c <= 7
  ;! requires %lo >= 0
  ;! requires %lo <= %hi
  ;! requires %hi <= %lo+8
  ;! requires %hi <= 64
  ;! reads %total %c %c+1
  ;! writes %a %lo %hi
  ;! budget 0 70
entry:
  ;! left 0 8*%hi+6-8*%lo
  %q = getelementptr inbounds i64, ptr %total, i64 %c
  %before = load i64, ptr %q
  br label %head
head:
  ;! keeps %lo >= 0
  ;! keeps %lo <= %j
  ;! keeps %j <= %hi
  ;! keeps %hi <= 64
  ;! left 0 8*%hi+3-8*%j
  %j = phi i64 [ %lo, %entry ], [ %k, %body ]
  %more = icmp slt i64 %j, %hi
  br i1 %more, label %body, label %done
body:
  ;! keeps %lo >= 0
  ;! keeps %lo <= %j
  ;! keeps %j+1 <= %hi
  ;! keeps %hi <= 64
  ;! left 0 8*%hi+1-8*%j
  %p = getelementptr inbounds i64, ptr %a, i64 %j
  %x = load i64, ptr %p
  %t = add i64 %x, %before
  store i64 %t, ptr %p
  %k = add nsw i64 %j, 1
  br label %head
done:
  ;! left 0 1
  ret void
}

define i64 @main() {
  ;! writes @a 0 64
  ;! writes @total 0 8
  ;! budget 0 1342
entry:
  ;! left 0 1342
  %s = call token @llvm.syncregion.start()
  %u = call token @llvm.syncregion.start()
  br label %first
first:
  ;! keeps %c >= 0
  ;! keeps %c <= 8
  ;! pending %s writes @a 0 8*%c
  ;! pending %s writes @total 0 %c
  ;! left 0 1339-79*%c
  %c = phi i64 [ 0, %entry ], [ %c1, %first.next ]
  %more = icmp slt i64 %c, 8
  br i1 %more, label %first.fork, label %first.done
first.fork:
  ;! keeps %c >= 0
  ;! keeps %c <= 7
  ;! pending %s writes @a 0 8*%c
  ;! pending %s writes @total 0 %c
  ;! left 0 1337-79*%c
  %lo = mul nsw i64 %c, 8
  ;! shows 8*%c >= 0
  ;! shows 8*%c <= 56
  ;! shows %lo >= 0
  ;! shows %lo <= 56
  detach within %s, label %first.chunk, label %first.next
first.chunk:
  ;! keeps %c >= 0
  ;! keeps %c <= 7
  ;! keeps %lo >= 0
  ;! keeps %lo <= 56
  ;! left 0 73
  ;! foot writes @a %lo %lo+8
  ;! foot writes @total %c %c+1
  %hi = add nsw i64 %lo, 8
  call void @sums(ptr @a, ptr @total, i64 %c, i64 %lo, i64 %hi)
  reattach within %s, label %first.next
first.next:
  ;! keeps %c >= 0
  ;! keeps %c <= 7
  ;! pending %s writes @a 0 8*%c+8
  ;! pending %s writes @total 0 %c+1
  ;! left 0 1262-79*%c
  %c1 = add nsw i64 %c, 1
  br label %first
first.done:
  ;! pending %s writes @a 0 8*%c
  ;! pending %s writes @total 0 %c
  ;! left 0 705
  sync within %s, label %totals
totals:
  ;! left 0 704
  br label %scan
scan:
  ;! keeps %i >= 0
  ;! keeps %i <= 8
  ;! left 0 703-8*%i
  %i = phi i64 [ 0, %totals ], [ %i1, %scan.step ]
  %sum = phi i64 [ 0, %totals ], [ %sum1, %scan.step ]
  %some = icmp slt i64 %i, 8
  br i1 %some, label %scan.step, label %second.entry
scan.step:
  ;! keeps %i >= 0
  ;! keeps %i <= 7
  ;! left 0 701-8*%i
  %p = getelementptr inbounds i64, ptr @total, i64 %i
  %x = load i64, ptr %p
  store i64 %sum, ptr %p
  %sum1 = add i64 %sum, %x
  %i1 = add nsw i64 %i, 1
  br label %scan
second.entry:
  ;! left 0 637
  br label %second
second:
  ;! keeps %d >= 0
  ;! keeps %d <= 8
  ;! pending %u writes @a 0 8*%d
  ;! pending %u reads @total 0 8
  ;! left 0 636-79*%d
  %d = phi i64 [ 0, %second.entry ], [ %d1, %second.next ]
  %left = icmp slt i64 %d, 8
  br i1 %left, label %second.fork, label %second.done
second.fork:
  ;! keeps %d >= 0
  ;! keeps %d <= 7
  ;! pending %u writes @a 0 8*%d
  ;! pending %u reads @total 0 8
  ;! left 0 634-79*%d
  %from = mul nsw i64 %d, 8
  ;! shows 8*%d >= 0
  ;! shows 8*%d <= 56
  ;! shows %from >= 0
  ;! shows %from <= 56
  detach within %u, label %second.chunk, label %second.next
second.chunk:
  ;! keeps %d >= 0
  ;! keeps %d <= 7
  ;! keeps %from >= 0
  ;! keeps %from <= 56
  ;! left 0 73
  ;! foot writes @a %from %from+8
  ;! foot reads @total 0 8
  %to = add nsw i64 %from, 8
  call void @shift(ptr @a, ptr @total, i64 %d, i64 %from, i64 %to)
  reattach within %u, label %second.next
second.next:
  ;! keeps %d >= 0
  ;! keeps %d <= 7
  ;! pending %u writes @a 0 8*%d+8
  ;! pending %u reads @total 0 8
  ;! left 0 559-79*%d
  %d1 = add nsw i64 %d, 1
  br label %second
second.done:
  ;! pending %u writes @a 0 8*%d
  ;! pending %u reads @total 0 8
  ;! left 0 2
  sync within %u, label %out
out:
  ;! left 0 1
  ret i64 %sum
}

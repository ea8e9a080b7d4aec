; Sums in two phases. First a child for each of %n cells adds its cell to the sum of its residue by 4; after the sync a child for
; each of the 4 sums adds its square to @total.
@a = global [64 x i64] zeroinitializer
@sums = global [4 x i64] zeroinitializer
@total = global [1 x i64] zeroinitializer

define i64 @main(i64 %n) {
  ;! requires %n >= 0
  ;! requires %n <= 64
  ;! reads @a 0 64
  ;! writes @sums 0 4
  ;! writes @total 0 1
  ;! budget 0 757
entry:
  ;! left 0 11*%n+53
  %s = call token @llvm.syncregion.start()
  store [4 x i64] zeroinitializer, ptr @sums
  store i64 0, ptr @total
  br label %first
first:
  ;! keeps %i >= 0
  ;! keeps %i <= %n
  ;! keeps %n <= 64
  ;! pending %s reads @a 0 64
  ;! pending %s adds @sums 0 4
  ;! left 0 11*%n+49-11*%i
  %i = phi i64 [ 0, %entry ], [ %i1, %first.next ]
  %more = icmp slt i64 %i, %n
  br i1 %more, label %first.fork, label %first.done
first.fork:
  ;! keeps %i >= 0
  ;! keeps %i+1 <= %n
  ;! keeps %n <= 64
  ;! pending %s reads @a 0 64
  ;! pending %s adds @sums 0 4
  ;! left 0 11*%n+47-11*%i
  detach within %s, label %first.cell, label %first.next
first.cell:
  ;! keeps %i >= 0
  ;! keeps %i+1 <= %n
  ;! keeps %n <= 64
  ;! left 0 6
  ;! foot reads @a %i %i+1
  ;! foot adds @sums 0 4
  %p = getelementptr inbounds i64, ptr @a, i64 %i
  %x = load i64, ptr %p
  %b = and i64 %i, 3
  %q = getelementptr inbounds i64, ptr @sums, i64 %b
  atomicrmw add ptr %q, i64 %x seq_cst
  reattach within %s, label %first.next
first.next:
  ;! keeps %i >= 0
  ;! keeps %i+1 <= %n
  ;! keeps %n <= 64
  ;! pending %s reads @a 0 64
  ;! pending %s adds @sums 0 4
  ;! left 0 11*%n+40-11*%i
  %i1 = add nsw i64 %i, 1
  br label %first
first.done:
  ;! pending %s reads @a 0 64
  ;! pending %s adds @sums 0 4
  ;! left 0 47
  sync within %s, label %between
between:
  ;! left 0 46
  br label %second
second:
  ;! keeps %j >= 0
  ;! keeps %j <= 4
  ;! pending %s reads @sums 0 4
  ;! pending %s adds @total 0 1
  ;! left 0 45-10*%j
  %j = phi i64 [ 0, %between ], [ %j1, %second.next ]
  %some = icmp slt i64 %j, 4
  br i1 %some, label %second.fork, label %second.done
second.fork:
  ;! keeps %j >= 0
  ;! keeps %j <= 3
  ;! pending %s reads @sums 0 4
  ;! pending %s adds @total 0 1
  ;! left 0 43-10*%j
  detach within %s, label %second.sum, label %second.next
second.sum:
  ;! keeps %j >= 0
  ;! keeps %j <= 3
  ;! left 0 5
  ;! foot reads @sums %j %j+1
  ;! foot adds @total 0 1
  %r = getelementptr inbounds i64, ptr @sums, i64 %j
  %y = load i64, ptr %r
  %yy = mul i64 %y, %y
  atomicrmw add ptr @total, i64 %yy seq_cst
  reattach within %s, label %second.next
second.next:
  ;! keeps %j >= 0
  ;! keeps %j <= 3
  ;! pending %s reads @sums 0 4
  ;! pending %s adds @total 0 1
  ;! left 0 37-10*%j
  %j1 = add nsw i64 %j, 1
  br label %second
second.done:
  ;! pending %s reads @sums 0 4
  ;! pending %s adds @total 0 1
  ;! left 0 3
  sync within %s, label %out
out:
  ;! left 0 2
  %t = load i64, ptr @total
  ret i64 %t
}

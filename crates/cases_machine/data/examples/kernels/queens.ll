; In how many ways %n queens stand on a board of %n rows and columns without threat. Each placed queen starts a child for the rows below
; it, and each solution adds 1 to the one cell of @count. Bit i of %columns, %up and %down says that column i is threatened.
@count = global [1 x i64] zeroinitializer

define void @place(i64 %n, i64 %rows, i64 %columns, i64 %up, i64 %down) {
  ;! requires %n >= 1
  ;! requires %n <= 8
  ;! requires %rows >= 0
  ;! requires %rows <= 8
  ;! adds @count 0 1
  ;! measure %rows max 8
  ;! budget 8 146
entry:
  ;! left %n 17*%n+10
  %s = call token @llvm.syncregion.start()
  %open = icmp sgt i64 %rows, 0
  br i1 %open, label %try, label %solved
solved:
  ;! left 0 2
  atomicrmw add ptr @count, i64 1 seq_cst
  ret void
try:
  ;! keeps %n >= 1
  ;! keeps %n <= 8
  ;! keeps %rows >= 1
  ;! keeps %rows <= 8
  ;! left %n 17*%n+7
  %a = or i64 %columns, %up
  %taken = or i64 %a, %down
  br label %head
head:
  ;! keeps %n <= 8
  ;! keeps %n >= 1
  ;! keeps %i >= 0
  ;! keeps %i <= %n
  ;! keeps %rows >= 1
  ;! keeps %rows <= 8
  ;! pending %s adds @count 0 1
  ;! left %n-%i 17*%n+4-17*%i
  %i = phi i64 [ 0, %try ], [ %i1, %next ]
  %more = icmp slt i64 %i, %n
  br i1 %more, label %look, label %done
look:
  ;! keeps %n <= 8
  ;! keeps %n >= 1
  ;! keeps %i >= 0
  ;! keeps %i+1 <= %n
  ;! keeps %rows >= 1
  ;! keeps %rows <= 8
  ;! pending %s adds @count 0 1
  ;! left %n-%i 17*%n+2-17*%i
  %bit = shl i64 1, %i
  %hit = and i64 %taken, %bit
  %free = icmp eq i64 %hit, 0
  br i1 %free, label %fork, label %next
fork:
  ;! keeps %n <= 8
  ;! keeps %n >= 1
  ;! keeps %i >= 0
  ;! keeps %i+1 <= %n
  ;! keeps %rows >= 1
  ;! keeps %rows <= 8
  ;! pending %s adds @count 0 1
  ;! left %n-%i 17*%n-17*%i-2
  detach within %s, label %below, label %next
below:
  ;! keeps %n >= 1
  ;! keeps %n <= 8
  ;! keeps %rows >= 1
  ;! keeps %rows <= 8
  ;! left 1 8
  ;! foot adds @count 0 1
  %c1 = or i64 %columns, %bit
  %u = or i64 %up, %bit
  %u1 = shl i64 %u, 1
  %d = or i64 %down, %bit
  %d1 = lshr i64 %d, 1
  %r1 = sub nsw i64 %rows, 1
  call void @place(i64 %n, i64 %r1, i64 %c1, i64 %u1, i64 %d1)
  reattach within %s, label %next
next:
  ;! keeps %n <= 8
  ;! keeps %n >= 1
  ;! keeps %i >= 0
  ;! keeps %i+1 <= %n
  ;! keeps %rows >= 1
  ;! keeps %rows <= 8
  ;! pending %s adds @count 0 1
  ;! left %n-%i-1 17*%n-17*%i-11
  %i1 = add nsw i64 %i, 1
  br label %head
done:
  ;! pending %s adds @count 0 1
  ;! left 0 2
  sync within %s, label %out
out:
  ;! left 0 1
  ret void
}

define i64 @main(i64 %n) {
  ;! requires %n >= 1
  ;! requires %n <= 8
  ;! writes @count 0 1
  ;! budget 0 2799398310
entry:
  ;! left 0 2799398310
  store i64 0, ptr @count
  call void @place(i64 %n, i64 %n, i64 0, i64 0, i64 0)
  %x = load i64, ptr @count
  ret i64 %x
}

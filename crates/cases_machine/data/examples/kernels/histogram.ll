; How often each of 16 low digits occurs in 64 cells. Children count 8 cells each and add to the same bins.
@in = global [64 x i64] zeroinitializer
@bins = global [16 x i64] zeroinitializer

define void @count(ptr noalias dereferenceable(512) %in, ptr noalias dereferenceable(128) %bins, i64 %lo, i64 %hi) {
  ;! requires %lo >= 0
  ;! requires %lo <= %hi
  ;! requires %hi <= %lo+8
  ;! requires %hi <= 64
  ;! reads %in %lo %hi
  ;! adds %bins 0 16
  ;! budget 0 76
entry:
  ;! left 0 9*%hi+4-9*%lo
  br label %head
head:
  ;! keeps %lo >= 0
  ;! keeps %lo <= %j
  ;! keeps %j <= %hi
  ;! keeps %hi <= 64
  ;! left 0 9*%hi+3-9*%j
  %j = phi i64 [ %lo, %entry ], [ %k, %body ]
  %more = icmp slt i64 %j, %hi
  br i1 %more, label %body, label %done
body:
  ;! keeps %lo >= 0
  ;! keeps %lo <= %j
  ;! keeps %j+1 <= %hi
  ;! keeps %hi <= 64
  ;! left 0 9*%hi+1-9*%j
  %p = getelementptr inbounds i64, ptr %in, i64 %j
  %x = load i64, ptr %p
  %b = and i64 %x, 15
  %q = getelementptr inbounds i64, ptr %bins, i64 %b
  atomicrmw add ptr %q, i64 1 seq_cst
  %k = add nsw i64 %j, 1
  br label %head
done:
  ;! left 0 1
  ret void
}

define i64 @main() {
  ;! reads @in 0 64
  ;! writes @bins 0 16
  ;! budget 0 712
entry:
  ;! left 0 712
  %s = call token @llvm.syncregion.start()
  store [16 x i64] zeroinitializer, ptr @bins
  br label %head
head:
  ;! keeps %lo >= 0
  ;! keeps %lo <= 64
  ;! pending %s reads @in 0 64
  ;! pending %s adds @bins 0 16
  ;! left 0 709-11*%lo
  %lo = phi i64 [ 0, %entry ], [ %hi1, %next ]
  %more = icmp sle i64 %lo, 56
  br i1 %more, label %fork, label %done
fork:
  ;! keeps %lo >= 0
  ;! keeps %lo <= 56
  ;! pending %s reads @in 0 64
  ;! pending %s adds @bins 0 16
  ;! left 0 703-11*%lo
  detach within %s, label %chunk, label %next
chunk:
  ;! keeps %lo >= 0
  ;! keeps %lo <= 56
  ;! left 0 79
  ;! foot reads @in %lo %lo+8
  ;! foot adds @bins 0 16
  %hi = add nsw i64 %lo, 8
  call void @count(ptr @in, ptr @bins, i64 %lo, i64 %hi)
  reattach within %s, label %next
next:
  ;! keeps %lo >= 0
  ;! keeps %lo <= 56
  ;! pending %s reads @in 0 64
  ;! pending %s adds @bins 0 16
  ;! left 0 623-11*%lo
  %hi1 = add nsw i64 %lo, 8
  br label %head
done:
  ;! pending %s reads @in 0 64
  ;! pending %s adds @bins 0 16
  ;! left 0 3
  sync within %s, label %out
out:
  ;! left 0 2
  %x = load i64, ptr @bins
  ret i64 %x
}

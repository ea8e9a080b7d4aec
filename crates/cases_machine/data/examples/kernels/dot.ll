; The dot product of two vectors of 64 cells. Each of 8 children writes the sum of 8 products into its own cell of an array of main's frame,
; and main adds these up after the sync.
@x = global [64 x i64] zeroinitializer
@y = global [64 x i64] zeroinitializer

define void @part(ptr noalias dereferenceable(512) %x, ptr noalias dereferenceable(512) %y, ptr noalias dereferenceable(64) %sums, i64 %c, i64 %lo, i64 %hi) {
  ;! requires %c >= 0
  ;! requires %c <= 7
  ;! requires %lo >= 0
  ;! requires %lo <= %hi
  ;! requires %hi <= %lo+8
  ;! requires %hi <= 64
  ;! reads %x %lo %hi
  ;! reads %y %lo %hi
  ;! writes %sums %c %c+1
  ;! budget 0 86
entry:
  ;! left 0 10*%hi+6-10*%lo
  br label %head
head:
  ;! keeps %c >= 0
  ;! keeps %c <= 7
  ;! keeps %lo >= 0
  ;! keeps %lo <= %j
  ;! keeps %j <= %hi
  ;! keeps %hi <= 64
  ;! left 0 10*%hi+5-10*%j
  %j = phi i64 [ %lo, %entry ], [ %k, %body ]
  %sum = phi i64 [ 0, %entry ], [ %t, %body ]
  %more = icmp slt i64 %j, %hi
  br i1 %more, label %body, label %done
body:
  ;! keeps %c >= 0
  ;! keeps %c <= 7
  ;! keeps %lo >= 0
  ;! keeps %lo <= %j
  ;! keeps %j+1 <= %hi
  ;! keeps %hi <= 64
  ;! left 0 10*%hi+3-10*%j
  %p = getelementptr inbounds i64, ptr %x, i64 %j
  %u = load i64, ptr %p
  %q = getelementptr inbounds i64, ptr %y, i64 %j
  %v = load i64, ptr %q
  %uv = mul i64 %u, %v
  %t = add i64 %sum, %uv
  %k = add nsw i64 %j, 1
  br label %head
done:
  ;! keeps %c >= 0
  ;! keeps %c <= 7
  ;! left 0 3
  %r = getelementptr inbounds i64, ptr %sums, i64 %c
  store i64 %sum, ptr %r
  ret void
}

define i64 @main() {
  ;! reads @x 0 64
  ;! reads @y 0 64
  ;! budget 0 827
entry:
  ;! left 0 827
  %s = call token @llvm.syncregion.start()
  %sums = alloca [8 x i64]
  store [8 x i64] zeroinitializer, ptr %sums
  br label %head
head:
  ;! keeps %c >= 0
  ;! keeps %c <= 8
  ;! pending %s reads @x 0 64
  ;! pending %s reads @y 0 64
  ;! pending %s writes %sums 0 %c
  ;! left 0 823-95*%c
  %c = phi i64 [ 0, %entry ], [ %c1, %next ]
  %more = icmp slt i64 %c, 8
  br i1 %more, label %fork, label %done
fork:
  ;! keeps %c >= 0
  ;! keeps %c <= 7
  ;! pending %s reads @x 0 64
  ;! pending %s reads @y 0 64
  ;! pending %s writes %sums 0 %c
  ;! left 0 821-95*%c
  detach within %s, label %chunk, label %next
chunk:
  ;! keeps %c >= 0
  ;! keeps %c <= 7
  ;! left 0 90
  ;! foot reads @x 0 64
  ;! foot reads @y 0 64
  ;! foot writes %sums %c %c+1
  ;! shows 8*%c >= 0
  ;! shows 8*%c <= 56
  %lo = mul nsw i64 %c, 8
  ;! shows %lo >= 0
  ;! shows %lo <= 56
  %hi = add nsw i64 %lo, 8
  call void @part(ptr @x, ptr @y, ptr %sums, i64 %c, i64 %lo, i64 %hi)
  reattach within %s, label %next
next:
  ;! keeps %c >= 0
  ;! keeps %c <= 7
  ;! pending %s reads @x 0 64
  ;! pending %s reads @y 0 64
  ;! pending %s writes %sums 0 %c+1
  ;! left 0 730-95*%c
  %c1 = add nsw i64 %c, 1
  br label %head
done:
  ;! pending %s reads @x 0 64
  ;! pending %s reads @y 0 64
  ;! pending %s writes %sums 0 %c
  ;! left 0 61
  sync within %s, label %add
add:
  ;! left 0 60
  br label %each
each:
  ;! keeps %i >= 0
  ;! keeps %i <= 8
  ;! left 0 59-7*%i
  %i = phi i64 [ 0, %add ], [ %i1, %one ]
  %sum = phi i64 [ 0, %add ], [ %sum1, %one ]
  %some = icmp slt i64 %i, 8
  br i1 %some, label %one, label %out
one:
  ;! keeps %i >= 0
  ;! keeps %i <= 7
  ;! left 0 57-7*%i
  %p = getelementptr inbounds i64, ptr %sums, i64 %i
  %v = load i64, ptr %p
  %sum1 = add i64 %sum, %v
  %i1 = add nsw i64 %i, 1
  br label %each
out:
  ;! left 0 1
  ret i64 %sum
}

; The product of two matrices of 8 rows and 8 columns, which lie in @a and @b row by row. A child computes a row of @c.
@a = global [64 x i64] zeroinitializer
@b = global [64 x i64] zeroinitializer
@c = global [64 x i64] zeroinitializer

define void @row(ptr noalias dereferenceable(512) %a, ptr noalias dereferenceable(512) %b, ptr noalias dereferenceable(512) %c, i64 %lo) {
  ;! requires %lo >= 0
  ;! requires %lo <= 56
  ;! reads %a %lo %lo+8
  ;! reads %b 0 64
  ;! writes %c %lo %lo+8
  ;! budget 0 916
entry:
  ;! left 0 916
  br label %columns
columns:
  ;! keeps %lo >= 0
  ;! keeps %lo <= 56
  ;! keeps %j >= 0
  ;! keeps %j <= 8
  ;! left 0 915-114*%j
  %j = phi i64 [ 0, %entry ], [ %j1, %cell ]
  %more = icmp slt i64 %j, 8
  br i1 %more, label %begin, label %done
begin:
  ;! keeps %lo >= 0
  ;! keeps %lo <= 56
  ;! keeps %j >= 0
  ;! keeps %j <= 7
  ;! left 0 913-114*%j
  br label %terms
terms:
  ;! keeps %lo >= 0
  ;! keeps %lo <= 56
  ;! keeps %j >= 0
  ;! keeps %j <= 7
  ;! keeps %k >= 0
  ;! keeps %k <= 8
  ;! left 0 912-114*%j-13*%k
  %k = phi i64 [ 0, %begin ], [ %k1, %term ]
  %sum = phi i64 [ 0, %begin ], [ %sum1, %term ]
  %some = icmp slt i64 %k, 8
  br i1 %some, label %term, label %cell
term:
  ;! keeps %lo >= 0
  ;! keeps %lo <= 56
  ;! keeps %j >= 0
  ;! keeps %j <= 7
  ;! keeps %k >= 0
  ;! keeps %k <= 7
  ;! left 0 910-114*%j-13*%k
  %ia = add nsw i64 %lo, %k
  ;! shows %ia >= %lo
  ;! shows %ia <= %lo+7
  %pa = getelementptr inbounds i64, ptr %a, i64 %ia
  %x = load i64, ptr %pa
  %kb = mul nsw i64 %k, 8
  ;! shows 8*%k >= 0
  ;! shows 8*%k <= 56
  ;! shows %kb >= 0
  ;! shows %kb <= 56
  %ib = add nsw i64 %kb, %j
  ;! shows %ib >= %kb
  ;! shows %ib <= %kb+7
  %pb = getelementptr inbounds i64, ptr %b, i64 %ib
  %y = load i64, ptr %pb
  %xy = mul i64 %x, %y
  %sum1 = add i64 %sum, %xy
  %k1 = add nsw i64 %k, 1
  br label %terms
cell:
  ;! keeps %lo >= 0
  ;! keeps %lo <= 56
  ;! keeps %j >= 0
  ;! keeps %j <= 7
  ;! left 0 806-114*%j
  %ic = add nsw i64 %lo, %j
  ;! shows %ic >= %lo
  ;! shows %ic <= %lo+7
  %pc = getelementptr inbounds i64, ptr %c, i64 %ic
  store i64 %sum, ptr %pc
  %j1 = add nsw i64 %j, 1
  br label %columns
done:
  ;! left 0 1
  ret void
}

define i64 @main() {
  ;! reads @a 0 64
  ;! reads @b 0 64
  ;! writes @c 0 64
  ;! budget 0 7400
entry:
  ;! left 0 7400
  %s = call token @llvm.syncregion.start()
  br label %rows
rows:
  ;! keeps %r >= 0
  ;! keeps %r <= 8
  ;! pending %s reads @a 0 64
  ;! pending %s reads @b 0 64
  ;! pending %s writes @c 0 8*%r
  ;! left 0 7398-924*%r
  %r = phi i64 [ 0, %entry ], [ %r1, %next ]
  %more = icmp slt i64 %r, 8
  br i1 %more, label %fork, label %done
fork:
  ;! keeps %r >= 0
  ;! keeps %r <= 7
  ;! pending %s reads @a 0 64
  ;! pending %s reads @b 0 64
  ;! pending %s writes @c 0 8*%r
  ;! left 0 7396-924*%r
  %lo = mul nsw i64 %r, 8
  ;! shows 8*%r >= 0
  ;! shows 8*%r <= 56
  ;! shows %lo >= 0
  ;! shows %lo <= 56
  detach within %s, label %one, label %next
one:
  ;! keeps %lo >= 0
  ;! keeps %lo <= 56
  ;! left 0 918
  ;! foot reads @a 0 64
  ;! foot reads @b 0 64
  ;! foot writes @c %lo %lo+8
  call void @row(ptr @a, ptr @b, ptr @c, i64 %lo)
  reattach within %s, label %next
next:
  ;! keeps %r >= 0
  ;! keeps %r <= 7
  ;! pending %s reads @a 0 64
  ;! pending %s reads @b 0 64
  ;! pending %s writes @c 0 8*%r+8
  ;! left 0 6476-924*%r
  %r1 = add nsw i64 %r, 1
  br label %rows
done:
  ;! pending %s reads @a 0 64
  ;! pending %s reads @b 0 64
  ;! pending %s writes @c 0 8*%r
  ;! left 0 4
  sync within %s, label %out
out:
  ;! left 0 3
  %p = getelementptr inbounds i64, ptr @c, i64 63
  %x = load i64, ptr %p
  ret i64 %x
}

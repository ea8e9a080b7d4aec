@row = global [65 x i64] zeroinitializer
@col = global [1024 x i64] zeroinitializer
@sum = global [64 x i64] zeroinitializer

define i64 @main() {
  ;! reads @row 0 65
  ;! reads @col 0 1024
  ;! writes @sum 0 64
entry:
  br label %rows
rows:
  %k = phi i64 [ 0, %entry ], [ %k1, %next ]
  %more = icmp slt i64 %k, 64
  br i1 %more, label %row, label %done
row:
  %p = getelementptr inbounds i64, ptr @row, i64 %k
  %c = load i64, ptr %p
  %to = and i64 %c, 1023
  %from = and i64 %c, 15
  br label %cells
cells:
  %e = phi i64 [ %from, %row ], [ %e1, %cell ]
  %t = phi i64 [ 0, %row ], [ %t1, %cell ]
  %some = icmp slt i64 %e, %to
  br i1 %some, label %cell, label %next
cell:
  %q = getelementptr inbounds i64, ptr @col, i64 %e
  %x = load i64, ptr %q
  %t1 = add i64 %t, %x
  %e1 = add nsw i64 %e, 1
  br label %cells
next:
  %s = getelementptr inbounds i64, ptr @sum, i64 %k
  store i64 %t, ptr %s
  %k1 = add nsw i64 %k, 1
  br label %rows
done:
  ret i64 0
}

define i64 @main(i64 %n) {
entry:
%c = icmp slt i64 %n, 0
br i1 %c, label %left, label %right
left:
%l = add i64 %n, 1
br label %join
right:
%r = add i64 %n, 2
br label %join
join:
%p = phi i64 [ %l, %left ], [ %r, %right ]
br label %head
head:
%i = phi i64 [ 0, %join ], [ %k, %head ]
%k = add i64 %i, 1
%e = icmp slt i64 %k, %n
br i1 %e, label %head, label %out
out:
ret i64 %k
}

; Karatsuba's product of two polynomials of 2*%h coefficients: three products of halves, two of them in children, then a loop that puts them together.
@x = global [64 x i64] zeroinitializer
@y = global [64 x i64] zeroinitializer
@z = global [128 x i64] zeroinitializer
@sumx = global [64 x i64] zeroinitializer
@sumy = global [64 x i64] zeroinitializer
@low = global [64 x i64] zeroinitializer
@high = global [64 x i64] zeroinitializer
@mid = global [64 x i64] zeroinitializer

define void @product(ptr noalias dereferenceable(512) %a, ptr noalias dereferenceable(512) %b, ptr noalias dereferenceable(512) %o, i64 %at, i64 %n) {
  ;! requires %at >= 0
  ;! requires %n >= 0
  ;! requires %n <= 32
  ;! requires %at+%n <= 64
  ;! reads %a %at %at+%n
  ;! reads %b %at %at+%n
  ;! writes %o 0 2*%n
entry:
  br label %rows
rows:
  %i = phi i64 [ 0, %entry ], [ %i1, %next ]
  %more = icmp slt i64 %i, %n
  br i1 %more, label %row, label %done
row:
  %ai = add nsw i64 %at, %i
  %pa = getelementptr inbounds i64, ptr %a, i64 %ai
  %av = load i64, ptr %pa
  br label %columns
columns:
  %j = phi i64 [ 0, %row ], [ %j1, %column ]
  %some = icmp slt i64 %j, %n
  br i1 %some, label %column, label %next
column:
  %bi = add nsw i64 %at, %j
  %pb = getelementptr inbounds i64, ptr %b, i64 %bi
  %bv = load i64, ptr %pb
  %oi = add nsw i64 %i, %j
  %po = getelementptr inbounds i64, ptr %o, i64 %oi
  %ov = load i64, ptr %po
  %p = mul i64 %av, %bv
  %s = add i64 %ov, %p
  store i64 %s, ptr %po
  %j1 = add nsw i64 %j, 1
  br label %columns
next:
  %i1 = add nsw i64 %i, 1
  br label %rows
done:
  ret void
}

define void @sums(ptr noalias dereferenceable(512) %a, ptr noalias dereferenceable(512) %o, i64 %h) {
  ;! requires %h >= 0
  ;! requires %h <= 32
  ;! reads %a 0 2*%h
  ;! writes %o 0 %h
entry:
  br label %head
head:
  %i = phi i64 [ 0, %entry ], [ %i1, %body ]
  %more = icmp slt i64 %i, %h
  br i1 %more, label %body, label %done
body:
  %p = getelementptr inbounds i64, ptr %a, i64 %i
  %v = load i64, ptr %p
  %k = add nsw i64 %h, %i
  %q = getelementptr inbounds i64, ptr %a, i64 %k
  %w = load i64, ptr %q
  %s = add i64 %v, %w
  %r = getelementptr inbounds i64, ptr %o, i64 %i
  store i64 %s, ptr %r
  %i1 = add nsw i64 %i, 1
  br label %head
done:
  ret void
}

define void @kar(i64 %h) {
  ;! requires %h >= 1
  ;! requires %h <= 32
  ;! reads @x 0 2*%h
  ;! reads @y 0 2*%h
  ;! writes @z 0 4*%h
  ;! writes @sumx 0 %h
  ;! writes @sumy 0 %h
  ;! writes @low 0 2*%h
  ;! writes @high 0 2*%h
  ;! writes @mid 0 2*%h
entry:
  %s = call token @llvm.syncregion.start()
  detach within %s, label %first, label %second
first:
  call void @product(ptr @x, ptr @y, ptr @low, i64 0, i64 %h)
  reattach within %s, label %second
second:
  detach within %s, label %last, label %third
last:
  call void @product(ptr @x, ptr @y, ptr @high, i64 %h, i64 %h)
  reattach within %s, label %third
third:
  call void @sums(ptr @x, ptr @sumx, i64 %h)
  call void @sums(ptr @y, ptr @sumy, i64 %h)
  call void @product(ptr @sumx, ptr @sumy, ptr @mid, i64 0, i64 %h)
  sync within %s, label %together
together:
  %w = add nsw i64 %h, %h
  br label %head
head:
  %i = phi i64 [ 0, %together ], [ %i1, %body ]
  %more = icmp slt i64 %i, %w
  br i1 %more, label %body, label %done
body:
  %pl = getelementptr inbounds i64, ptr @low, i64 %i
  %l = load i64, ptr %pl
  %ph = getelementptr inbounds i64, ptr @high, i64 %i
  %u = load i64, ptr %ph
  %pm = getelementptr inbounds i64, ptr @mid, i64 %i
  %m = load i64, ptr %pm
  %ml = sub i64 %m, %l
  %mid = sub i64 %ml, %u
  %p0 = getelementptr inbounds i64, ptr @z, i64 %i
  %v0 = load i64, ptr %p0
  %s0 = add i64 %v0, %l
  store i64 %s0, ptr %p0
  %k = add nsw i64 %h, %i
  %p1 = getelementptr inbounds i64, ptr @z, i64 %k
  %v1 = load i64, ptr %p1
  %s1 = add i64 %v1, %mid
  store i64 %s1, ptr %p1
  %t = add nsw i64 %w, %i
  %p2 = getelementptr inbounds i64, ptr @z, i64 %t
  %v2 = load i64, ptr %p2
  %s2 = add i64 %v2, %u
  store i64 %s2, ptr %p2
  %i1 = add nsw i64 %i, 1
  br label %head
done:
  ret void
}

define i64 @main(i64 %h) {
  ;! requires %h >= 1
  ;! requires %h <= 32
entry:
  call void @kar(i64 %h)
  %x = load i64, ptr @z
  ret i64 %x
}

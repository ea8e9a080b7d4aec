; The convex hull of the cells that are not 0 in an image of 64 lines and 64 columns; the result is twice its area. First a child finds the
; leftmost and the rightmost cell of each line (-1 where the line has none). Then two children go down the lines, one along the left edge
; and one along the right, and keep the hull's corners on a stack (monotone chain): @left and @right then hold the lines of the corners,
; @corners how many there are.
; Of its annotations an author wrote 65, and `tapirvm annotate` the others.
@image = global [4096 x i64] zeroinitializer
@first = global [64 x i64] zeroinitializer
@last = global [64 x i64] zeroinitializer
@left = global [64 x i64] zeroinitializer
@right = global [64 x i64] zeroinitializer
@corners = global [2 x i64] zeroinitializer
@areas = global [2 x i64] zeroinitializer

define void @scan(i64 %y) {
  ;! requires %y >= 0
  ;! requires %y <= 63
  ;! reads @image 64*%y 64*%y+64
  ;! writes @first %y %y+1
  ;! writes @last %y %y+1
  ;! budget 0 841
entry:
  ;! left 0 841
  ;! shows 64*%y >= 0
  ;! shows 64*%y <= 4032
  %lo = mul nsw i64 %y, 64
  ;! shows %lo >= 0
  ;! shows %lo <= 4032
  br label %head
head:
  ;! keeps %y >= 0
  ;! keeps %y <= 63
  ;! keeps 64*%y >= 0
  ;! keeps 64*%y <= 4032
  ;! keeps %lo >= 0
  ;! keeps %lo <= 4032
  ;! keeps %lo <= 64*%y
  ;! keeps 64*%y <= %lo
  ;! keeps %x >= 0
  ;! keeps %x <= 64
  ;! left 0 839-13*%x
  %x = phi i64 [ 0, %entry ], [ %x1, %next ]
  %from = phi i64 [ -1, %entry ], [ %from1, %next ]
  %to = phi i64 [ -1, %entry ], [ %to1, %next ]
  %more = icmp slt i64 %x, 64
  br i1 %more, label %look, label %done
look:
  ;! keeps %y >= 0
  ;! keeps %y <= 63
  ;! keeps %x >= 0
  ;! keeps 64*%y >= 0
  ;! keeps 64*%y <= 4032
  ;! keeps %lo >= 0
  ;! keeps %lo <= 4032
  ;! keeps %x <= 63
  ;! keeps %lo <= 64*%y
  ;! keeps 64*%y <= %lo
  ;! left 0 837-13*%x
  %at = add nsw i64 %lo, %x
  ;! shows %at >= %lo
  ;! shows %at <= %lo+63
  %p = getelementptr inbounds i64, ptr @image, i64 %at
  %c = load i64, ptr %p
  %set = icmp ne i64 %c, 0
  br i1 %set, label %some, label %next
some:
  ;! keeps %y >= 0
  ;! keeps %y <= 63
  ;! keeps %x >= 0
  ;! keeps 64*%y >= 0
  ;! keeps 64*%y <= 4032
  ;! keeps %lo >= 0
  ;! keeps %lo <= 4032
  ;! keeps %x <= 63
  ;! keeps %lo <= 64*%y
  ;! keeps 64*%y <= %lo
  ;! left 0 832-13*%x
  %fresh = icmp slt i64 %from, 0
  br i1 %fresh, label %begins, label %goes
begins:
  ;! keeps %y >= 0
  ;! keeps %y <= 63
  ;! keeps %x >= 0
  ;! keeps 64*%y >= 0
  ;! keeps 64*%y <= 4032
  ;! keeps %lo >= 0
  ;! keeps %x <= 63
  ;! keeps %lo <= 64*%y
  ;! keeps 64*%y <= %lo
  ;! left 0 830-13*%x
  br label %goes
goes:
  ;! keeps %y >= 0
  ;! keeps %y <= 63
  ;! keeps %x >= 0
  ;! keeps 64*%y >= 0
  ;! keeps 64*%y <= 4032
  ;! keeps %lo >= 0
  ;! keeps %x <= 63
  ;! keeps %lo <= 64*%y
  ;! keeps 64*%y <= %lo
  ;! left 0 829-13*%x
  %from2 = phi i64 [ %from, %some ], [ %x, %begins ]
  br label %next
next:
  ;! keeps %y >= 0
  ;! keeps %y <= 63
  ;! keeps %x >= 0
  ;! keeps 64*%y >= 0
  ;! keeps 64*%y <= 4032
  ;! keeps %lo >= 0
  ;! keeps %x <= 63
  ;! keeps %lo <= 64*%y
  ;! keeps 64*%y <= %lo
  ;! left 0 828-13*%x
  %from1 = phi i64 [ %from, %look ], [ %from2, %goes ]
  %to1 = phi i64 [ %to, %look ], [ %x, %goes ]
  %x1 = add nsw i64 %x, 1
  br label %head
done:
  ;! keeps %y >= 0
  ;! keeps %y <= 63
  ;! keeps 64*%y >= 0
  ;! keeps 64*%y <= 4032
  ;! left 0 5
  %pf = getelementptr inbounds i64, ptr @first, i64 %y
  store i64 %from, ptr %pf
  %pl = getelementptr inbounds i64, ptr @last, i64 %y
  store i64 %to, ptr %pl
  ret void
}

define i64 @chain(ptr noalias dereferenceable(512) %edge, ptr noalias dereferenceable(512) %stack, i64 %sign) {
  ;! ensures %.ret >= 0
  ;! ensures %.ret <= 64
  ;! reads %edge 0 64
  ;! writes %stack 0 64
  ;! budget 0 3908
entry:
  ;! left 0 3908
  br label %lines
lines:
  ;! keeps %y <= 64
  ;! keeps %k >= 0
  ;! keeps %k <= %y
  ;! left 0 3907-61*%y+25*%k
  %y = phi i64 [ 0, %entry ], [ %y1, %next ]
  %k = phi i64 [ 0, %entry ], [ %k1, %next ]
  %more = icmp slt i64 %y, 64
  br i1 %more, label %line, label %done
line:
  ;! keeps %k >= 0
  ;! keeps %k <= %y
  ;! keeps %y <= 63
  ;! left 0 25*%k-61*%y+3905
  %p = getelementptr inbounds i64, ptr %edge, i64 %y
  %x = load i64, ptr %p
  %some = icmp sge i64 %x, 0
  br i1 %some, label %corners, label %next
corners:
  ;! keeps %k >= 0
  ;! keeps %k <= %y
  ;! keeps %y <= 63
  ;! keeps %t >= 0
  ;! keeps %t <= %y
  ;! left 0 3901-61*%y+25*%t
  %t = phi i64 [ %k, %line ], [ %t1, %drop ]
  %two = icmp sge i64 %t, 2
  br i1 %two, label %turn, label %push
turn:
  ;! keeps %k >= 0
  ;! keeps %k <= %y
  ;! keeps %t <= %y
  ;! keeps %y <= 63
  ;! keeps %t >= 2
  ;! left 0 25*%t-61*%y+3899
  ;! shows %t <= 63
  %t1 = sub nsw i64 %t, 1
  %pb = getelementptr inbounds i64, ptr %stack, i64 %t1
  %by = load i64, ptr %pb
  %t2 = sub nsw i64 %t, 2
  %pa = getelementptr inbounds i64, ptr %stack, i64 %t2
  %ay = load i64, ptr %pa
  %bi = and i64 %by, 63
  %qb = getelementptr inbounds i64, ptr %edge, i64 %bi
  %bx = load i64, ptr %qb
  %ai = and i64 %ay, 63
  %qa = getelementptr inbounds i64, ptr %edge, i64 %ai
  %ax = load i64, ptr %qa
  %bax = sub i64 %bx, %ax
  %cax = sub i64 %x, %ax
  %bay = sub i64 %by, %ay
  %cay = sub i64 %y, %ay
  %left = mul i64 %bax, %cay
  %right = mul i64 %cax, %bay
  %cross = sub i64 %left, %right
  %way = mul i64 %cross, %sign
  %inside = icmp sge i64 %way, 0
  br i1 %inside, label %drop, label %push
drop:
  ;! keeps %k >= 0
  ;! keeps %k <= %y
  ;! keeps %y <= 63
  ;! keeps %t1 >= 0
  ;! keeps %t1 <= %y
  ;! left 0 25*%t1-61*%y+3902
  br label %corners
push:
  ;! keeps %t >= 0
  ;! keeps %t <= %y
  ;! keeps %y <= 63
  ;! left 0 25*%t-61*%y+3877
  %ps = getelementptr inbounds i64, ptr %stack, i64 %t
  store i64 %y, ptr %ps
  %t3 = add nsw i64 %t, 1
  br label %next
next:
  ;! keeps %y <= 63
  ;! keeps %k1 >= 0
  ;! keeps %k1 <= %y+1
  ;! left 0 25*%k1-61*%y+3848
  %k1 = phi i64 [ %k, %line ], [ %t3, %push ]
  %y1 = add nsw i64 %y, 1
  br label %lines
done:
  ;! keeps %y <= 64
  ;! keeps %k >= 0
  ;! keeps %k <= %y
  ;! left 0 1
  ret i64 %k
}

define i64 @area(ptr noalias dereferenceable(512) %edge, ptr noalias dereferenceable(512) %stack, i64 %n) {
  ;! requires %n >= 0
  ;! requires %n <= 64
  ;! reads %edge 0 64
  ;! reads %stack 0 64
  ;! budget 0 1201
entry:
  ;! left 0 1201
  br label %head
head:
  ;! keeps %n <= 64
  ;! keeps %i >= 1
  ;! keeps %i <= 64
  ;! left 0 1219-19*%i
  %i = phi i64 [ 1, %entry ], [ %i1, %strip ]
  %sum = phi i64 [ 0, %entry ], [ %sum1, %strip ]
  %more = icmp slt i64 %i, %n
  br i1 %more, label %strip, label %done
strip:
  ;! keeps %n <= 64
  ;! keeps %i >= 1
  ;! keeps %i <= 64
  ;! keeps %i+1 <= %n
  ;! left 0 1217-19*%i
  %h = sub nsw i64 %i, 1
  %pa = getelementptr inbounds i64, ptr %stack, i64 %h
  %ay = load i64, ptr %pa
  %pb = getelementptr inbounds i64, ptr %stack, i64 %i
  %by = load i64, ptr %pb
  %ai = and i64 %ay, 63
  %qa = getelementptr inbounds i64, ptr %edge, i64 %ai
  %ax = load i64, ptr %qa
  %bi = and i64 %by, 63
  %qb = getelementptr inbounds i64, ptr %edge, i64 %bi
  %bx = load i64, ptr %qb
  %width = add i64 %ax, %bx
  %height = sub i64 %by, %ay
  %strip2 = mul i64 %width, %height
  %sum1 = add i64 %sum, %strip2
  %i1 = add nsw i64 %i, 1
  ;! shows %i1 <= %n
  br label %head
done:
  ;! left 0 1
  ret i64 %sum
}

define void @side(ptr noalias dereferenceable(512) %edge, ptr noalias dereferenceable(512) %stack, ptr noalias dereferenceable(16) %corners, ptr noalias dereferenceable(16) %areas, i64 %which, i64 %sign) {
  ;! requires %which >= 0
  ;! requires %which <= 1
  ;! reads %edge 0 64
  ;! writes %stack 0 64
  ;! writes %corners %which %which+1
  ;! writes %areas %which %which+1
  ;! budget 0 5116
entry:
  ;! left 0 5116
  %n = call i64 @chain(ptr %edge, ptr %stack, i64 %sign)
  %pc = getelementptr inbounds i64, ptr %corners, i64 %which
  store i64 %n, ptr %pc
  %area = call i64 @area(ptr %edge, ptr %stack, i64 %n)
  %pa = getelementptr inbounds i64, ptr %areas, i64 %which
  store i64 %area, ptr %pa
  ret void
}

define i64 @main() {
  ;! reads @image 0 4096
  ;! writes @first 0 64
  ;! writes @last 0 64
  ;! writes @left 0 64
  ;! writes @right 0 64
  ;! writes @corners 0 2
  ;! writes @areas 0 2
  ;! budget 0 64519
entry:
  ;! left 0 64519
  %s = call token @llvm.syncregion.start()
  br label %head
head:
  ;! keeps %y >= 0
  ;! keeps %y <= 64
  ;! pending %s reads @image 0 4096
  ;! pending %s writes @first 0 %y
  ;! pending %s writes @last 0 %y
  ;! left 0 64517-848*%y
  %y = phi i64 [ 0, %entry ], [ %y1, %after ]
  %more = icmp slt i64 %y, 64
  br i1 %more, label %fork, label %wait
fork:
  ;! keeps %y >= 0
  ;! keeps %y <= 63
  ;! pending %s reads @image 0 4096
  ;! pending %s writes @first 0 %y
  ;! pending %s writes @last 0 %y
  ;! left 0 64515-848*%y
  detach within %s, label %line, label %after
line:
  ;! keeps %y >= 0
  ;! keeps %y <= 63
  ;! left 0 843
  ;! foot reads @image 64*%y 64*%y+64
  ;! foot writes @first %y %y+1
  ;! foot writes @last %y %y+1
  call void @scan(i64 %y)
  reattach within %s, label %after
after:
  ;! keeps %y >= 0
  ;! keeps %y <= 63
  ;! pending %s reads @image 0 4096
  ;! pending %s writes @first 0 %y
  ;! pending %s writes @last 0 %y
  ;! pending %s writes @first %y %y+1
  ;! pending %s writes @last %y %y+1
  ;! left 0 63671-848*%y
  %y1 = add nsw i64 %y, 1
  br label %head
wait:
  ;! pending %s reads @image 0 4096
  ;! pending %s writes @first 0 %y
  ;! pending %s writes @last 0 %y
  ;! left 0 10243
  sync within %s, label %edges
edges:
  ;! left 0 10242
  detach within %s, label %ledge, label %redge
ledge:
  ;! left 0 5118
  ;! foot reads @first 0 64
  ;! foot writes @left 0 64
  ;! foot writes @corners 0 1
  ;! foot writes @areas 0 1
  call void @side(ptr @first, ptr @left, ptr @corners, ptr @areas, i64 0, i64 1)
  reattach within %s, label %redge
redge:
  ;! pending %s reads @first 0 64
  ;! pending %s writes @left 0 64
  ;! pending %s writes @corners 0 1
  ;! pending %s writes @areas 0 1
  ;! left 0 5123
  call void @side(ptr @last, ptr @right, ptr @corners, ptr @areas, i64 1, i64 -1)
  sync within %s, label %both
both:
  ;! left 0 5
  %l = load i64, ptr @areas
  %p = getelementptr inbounds i64, ptr @areas, i64 1
  %r = load i64, ptr %p
  %area = sub i64 %r, %l
  ret i64 %area
}

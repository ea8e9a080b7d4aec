@g = global [4 x i64] zeroinitializer
define i64 @put(ptr noalias dereferenceable(32) %p, i64 %x) {
  ;! budget 0 5
  ;! writes %p 2 3
entry:
  ;! left 0 5
%q = getelementptr inbounds i64, ptr %p, i64 2
store i64 %x, ptr %q
%r = getelementptr inbounds i64, ptr %p, i64 2
%y = load i64, ptr %r
ret i64 %y
}
define i64 @main(i64 %n) {
  ;! budget 0 2604
  ;! writes @g 2 4
;! requires %n >= 1
;! requires %n <= 100
entry:
  ;! left 0 26*%n+4
%a = alloca [4 x i64]
store [4 x i64] zeroinitializer, ptr %a
br label %head
head:
  ;! keeps %i >= 0
  ;! keeps %i+1 <= %n
  ;! keeps %n >= 1
  ;! keeps %n <= 100
  ;! left 0 -26*%i+26*%n+1
%i = phi i64 [ 0, %entry ], [ %j, %next ]
%s = phi i64 [ 0, %entry ], [ %t, %next ]
%k = and i64 %i, 3
%e = getelementptr inbounds i64, ptr %a, i64 %k
store i64 %s, ptr %e
%d = getelementptr inbounds i64, ptr %a, i64 1
%o = load i64, ptr %d
%h = getelementptr inbounds i64, ptr @g, i64 3
store i64 %o, ptr %h
%z = call i64 @put(ptr @g, i64 %s)
%u = trunc i64 %z to i32
%v = add i32 %u, 1000000007
%w = xor i32 %v, %u
%x = sub i32 5, %w
%c = icmp ult i32 %v, %x
br i1 %c, label %less, label %more
less:
  ;! keeps %i >= 0
  ;! keeps %i+1 <= %n
  ;! keeps %n >= 1
  ;! keeps %n <= 100
  ;! left 0 -26*%i+26*%n-20
%l = sext i32 %x to i64
br label %next
more:
  ;! keeps %i >= 0
  ;! keeps %i+1 <= %n
  ;! keeps %n >= 1
  ;! keeps %n <= 100
  ;! left 0 -26*%i+26*%n-18
%b = icmp sgt i32 %w, -7
br i1 %b, label %wide, label %same
wide:
  ;! keeps %i >= 0
  ;! keeps %i+1 <= %n
  ;! keeps %n >= 1
  ;! keeps %n <= 100
  ;! keeps %w+6 >= 0
  ;! left 0 -26*%i+26*%n-20
%f = zext i32 %w to i64
br label %next
same:
  ;! keeps %i >= 0
  ;! keeps %i+1 <= %n
  ;! keeps %n >= 1
  ;! keeps %n <= 100
  ;! left 0 -26*%i+26*%n-21
br label %next
next:
  ;! keeps %i >= 0
  ;! keeps %i+1 <= %n
  ;! keeps %n >= 1
  ;! keeps %n <= 100
  ;! left 0 -26*%i+26*%n-22
%t = phi i64 [ %l, %less ], [ %f, %wide ], [ %i, %same ]
%j = add nsw i64 %i, 1
%m = icmp slt i64 %j, %n
br i1 %m, label %head, label %out
out:
  ;! left 0 1
ret i64 %t
}

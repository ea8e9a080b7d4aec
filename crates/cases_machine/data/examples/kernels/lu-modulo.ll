; Writes 64 matrices of 8 rows and 8 columns as products of a lower and an upper triangle modulo the prime 1,000,003, in place: below the
; diagonal stands the lower one, whose diagonal is 1. The cells of @a are numbers from 0 to 1,000,002, a matrix after the other and row by
; row. There is no pivoting: @good is 1 for the matrices that come apart so, and the result is how many they are. A child does a matrix.
; Of its annotations an author wrote 41, and `tapirvm annotate` the others.
@a = global [4096 x i64] zeroinitializer
@good = global [64 x i64] zeroinitializer

define i64 @index(i64 %base, i64 %row, i64 %column) {
  ;! requires %base >= 0
  ;! requires %base <= 4032
  ;! ensures %.ret >= %base
  ;! ensures %.ret <= %base+63
  ;! budget 0 5
entry:
  ;! left 0 5
  %down = shl i64 %row, 3
  %in = add i64 %down, %column
  %cell = and i64 %in, 63
  %at = add nsw i64 %base, %cell
  ret i64 %at
}

define i64 @inverse(i64 %x) {
  ;! budget 0 264
entry:
  ;! left 0 264
  br label %head
head:
  ;! keeps %i >= 0
  ;! keeps %i <= 20
  ;! left 0 263-13*%i
  %i = phi i64 [ 0, %entry ], [ %i1, %square ]
  %power = phi i64 [ %x, %entry ], [ %power1, %square ]
  %bits = phi i64 [ 1000001, %entry ], [ %bits1, %square ]
  %product = phi i64 [ 1, %entry ], [ %product1, %square ]
  %more = icmp slt i64 %i, 20
  br i1 %more, label %bit, label %done
bit:
  ;! keeps %i >= 0
  ;! keeps %i <= 19
  ;! left 0 261-13*%i
  %low = and i64 %bits, 1
  %odd = icmp eq i64 %low, 1
  br i1 %odd, label %times, label %square
times:
  ;! keeps %i >= 0
  ;! keeps %i <= 19
  ;! left 0 258-13*%i
  %raw = mul i64 %product, %power
  %reduced = urem i64 %raw, 1000003
  br label %square
square:
  ;! keeps %i >= 0
  ;! keeps %i <= 19
  ;! left 0 255-13*%i
  %product1 = phi i64 [ %product, %bit ], [ %reduced, %times ]
  %twice = mul i64 %power, %power
  %power1 = urem i64 %twice, 1000003
  %bits1 = lshr i64 %bits, 1
  %i1 = add nsw i64 %i, 1
  br label %head
done:
  ;! left 0 1
  ret i64 %product
}

define void @subtract(ptr noalias dereferenceable(32768) %a, i64 %base, i64 %k, i64 %i, i64 %factor) {
  ;! requires %base >= 0
  ;! requires %base <= 4032
  ;! requires %k >= 0
  ;! requires %k <= 7
  ;! writes %a %base %base+64
  ;! budget 0 187
entry:
  ;! left 0 187-26*%k
  %k1 = add nsw i64 %k, 1
  br label %head
head:
  ;! keeps %base >= 0
  ;! keeps %base <= 4032
  ;! keeps %k >= 0
  ;! keeps %k <= 7
  ;! keeps %j >= 0
  ;! keeps %j <= 8
  ;! left 0 211-26*%j
  %j = phi i64 [ %k1, %entry ], [ %j1, %cell ]
  %more = icmp slt i64 %j, 8
  br i1 %more, label %cell, label %done
cell:
  ;! keeps %base >= 0
  ;! keeps %base <= 4032
  ;! keeps %k >= 0
  ;! keeps %k <= 7
  ;! keeps %j >= 0
  ;! keeps %j <= 7
  ;! left 0 209-26*%j
  %kj = call i64 @index(i64 %base, i64 %k, i64 %j)
  %pk = getelementptr inbounds i64, ptr %a, i64 %kj
  %u = load i64, ptr %pk
  %raw = mul i64 %factor, %u
  %part = urem i64 %raw, 1000003
  %ij = call i64 @index(i64 %base, i64 %i, i64 %j)
  %pi = getelementptr inbounds i64, ptr %a, i64 %ij
  %x = load i64, ptr %pi
  %up = add i64 %x, 1000003
  %less = sub i64 %up, %part
  %y = urem i64 %less, 1000003
  store i64 %y, ptr %pi
  %j1 = add nsw i64 %j, 1
  br label %head
done:
  ;! left 0 1
  ret void
}

define i64 @decompose(ptr noalias dereferenceable(32768) %a, i64 %base) {
  ;! requires %base >= 0
  ;! requires %base <= 4032
  ;! writes %a %base %base+64
  ;! budget 0 13636
entry:
  ;! left 0 13636
  br label %columns
columns:
  ;! keeps %base >= 0
  ;! keeps %base <= 4032
  ;! keeps %k >= 0
  ;! keeps %k <= 8
  ;! left 0 13635-1704*%k
  %k = phi i64 [ 0, %entry ], [ %k1, %next ]
  %more = icmp slt i64 %k, 8
  br i1 %more, label %pivot, label %done
pivot:
  ;! keeps %base >= 0
  ;! keeps %base <= 4032
  ;! keeps %k >= 0
  ;! keeps %k <= 7
  ;! left 0 13633-1907*%k
  %kk = call i64 @index(i64 %base, i64 %k, i64 %k)
  %pk = getelementptr inbounds i64, ptr %a, i64 %kk
  %d = load i64, ptr %pk
  %none = icmp eq i64 %d, 0
  br i1 %none, label %fails, label %divide
fails:
  ;! left 0 1
  ret i64 0
divide:
  ;! keeps %base >= 0
  ;! keeps %base <= 4032
  ;! keeps %k >= 0
  ;! keeps %k <= 7
  ;! left 0 13623-1907*%k
  %v = call i64 @inverse(i64 %d)
  %i0 = add nsw i64 %k, 1
  br label %rows
rows:
  ;! keeps %base >= 0
  ;! keeps %base <= 4032
  ;! keeps %k >= 0
  ;! keeps %k <= 7
  ;! keeps %i >= 1
  ;! keeps %i <= 8
  ;! left 0 13559-1704*%k-203*%i
  %i = phi i64 [ %i0, %divide ], [ %i1, %row ]
  %some = icmp slt i64 %i, 8
  br i1 %some, label %row, label %next
row:
  ;! keeps %base >= 0
  ;! keeps %base <= 4032
  ;! keeps %k >= 0
  ;! keeps %i >= 1
  ;! keeps %k <= 7
  ;! keeps %i <= 7
  ;! left 0 13557-203*%i-1704*%k
  %ik = call i64 @index(i64 %base, i64 %i, i64 %k)
  %pi = getelementptr inbounds i64, ptr %a, i64 %ik
  %x = load i64, ptr %pi
  %raw = mul i64 %x, %v
  %factor = urem i64 %raw, 1000003
  store i64 %factor, ptr %pi
  call void @subtract(ptr %a, i64 %base, i64 %k, i64 %i, i64 %factor)
  %i1 = add nsw i64 %i, 1
  br label %rows
next:
  ;! keeps %base >= 0
  ;! keeps %base <= 4032
  ;! keeps %k >= 0
  ;! keeps %k <= 7
  ;! left 0 11933-1704*%k
  %k1 = add nsw i64 %k, 1
  br label %columns
done:
  ;! left 0 1
  ret i64 1
}

define i64 @count() {
  ;! reads @good 0 64
  ;! budget 0 452
entry:
  ;! left 0 452
  br label %head
head:
  ;! keeps %i >= 0
  ;! keeps %i <= 64
  ;! left 0 451-7*%i
  %i = phi i64 [ 0, %entry ], [ %i1, %body ]
  %sum = phi i64 [ 0, %entry ], [ %sum1, %body ]
  %more = icmp slt i64 %i, 64
  br i1 %more, label %body, label %done
body:
  ;! keeps %i >= 0
  ;! keeps %i <= 63
  ;! left 0 449-7*%i
  %p = getelementptr inbounds i64, ptr @good, i64 %i
  %x = load i64, ptr %p
  %sum1 = add i64 %sum, %x
  %i1 = add nsw i64 %i, 1
  br label %head
done:
  ;! left 0 1
  ret i64 %sum
}

define i64 @main() {
  ;! writes @a 0 4096
  ;! writes @good 0 64
  ;! budget 0 873803
entry:
  ;! left 0 873803
  %s = call token @llvm.syncregion.start()
  br label %head
head:
  ;! keeps %m >= 0
  ;! keeps %m <= 64
  ;! pending %s writes @a 0 64*%m
  ;! pending %s writes @good 0 %m
  ;! left 0 873801-13646*%m
  %m = phi i64 [ 0, %entry ], [ %m1, %after ]
  %more = icmp slt i64 %m, 64
  br i1 %more, label %fork, label %wait
fork:
  ;! keeps %m >= 0
  ;! keeps %m <= 63
  ;! pending %s writes @a 0 64*%m
  ;! pending %s writes @good 0 %m
  ;! left 0 873799-13646*%m
  ;! shows 64*%m >= 0
  ;! shows 64*%m <= 4032
  %base = mul nsw i64 %m, 64
  detach within %s, label %one, label %after
one:
  ;! keeps %m >= 0
  ;! keeps %m <= 63
  ;! keeps %base >= 0
  ;! keeps %base <= 4032
  ;! left 0 13640
  ;! foot writes @a %base %base+64
  ;! foot writes @good %m %m+1
  %is = call i64 @decompose(ptr @a, i64 %base)
  %p = getelementptr inbounds i64, ptr @good, i64 %m
  store i64 %is, ptr %p
  reattach within %s, label %after
after:
  ;! keeps %m >= 0
  ;! keeps %m <= 63
  ;! keeps %base >= 0
  ;! keeps %base <= 64*%m
  ;! pending %s writes @a 0 64*%m
  ;! pending %s writes @good 0 %m
  ;! pending %s writes @a %base %base+64
  ;! pending %s writes @good %m %m+1
  ;! left 0 860157-13646*%m
  %m1 = add nsw i64 %m, 1
  br label %head
wait:
  ;! pending %s writes @a 0 64*%m
  ;! pending %s writes @good 0 %m
  ;! left 0 455
  sync within %s, label %all
all:
  ;! left 0 454
  %n = call i64 @count()
  ret i64 %n
}

; The one instruction of 64-bit ARM that the module names: the sums of neighbours in two vectors, one after the other.
define internal <16 x i8> @sums_of_neighbours(<16 x i8> %a, <16 x i8> %b) alwaysinline {
  %left = shufflevector <16 x i8> %a, <16 x i8> %b, <16 x i32> <i32 0, i32 2, i32 4, i32 6, i32 8, i32 10, i32 12, i32 14, i32 16, i32 18, i32 20, i32 22, i32 24, i32 26, i32 28, i32 30>
  %right = shufflevector <16 x i8> %a, <16 x i8> %b, <16 x i32> <i32 1, i32 3, i32 5, i32 7, i32 9, i32 11, i32 13, i32 15, i32 17, i32 19, i32 21, i32 23, i32 25, i32 27, i32 29, i32 31>
  %sums = add <16 x i8> %left, %right
  ret <16 x i8> %sums
}

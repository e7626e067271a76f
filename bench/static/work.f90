! A select over many values, arrays, formatted output, and numbers of several kinds.
program work
  implicit none
  integer :: number, status, at, kinds(0:9) = 0
  real(8) :: sum = 0, matrix(4, 4)
  character(len=64) :: line
  do
    read (*, '(a)', iostat=status) line
    if (status /= 0) exit
    do at = 1, len_trim(line)
      number = ichar(line(at:at))
      select case (mod(number, 10))
      case (0); kinds(0) = kinds(0) + 1
      case (1); kinds(1) = kinds(1) + number
      case (2); kinds(2) = ieor(kinds(2), number)
      case (3); kinds(3) = kinds(3) - 1
      case (4); kinds(4) = kinds(4) * 2 + 1
      case (5); kinds(5) = mod(kinds(5) + number, 97)
      case (6); kinds(6) = max(kinds(6), number)
      case (7); sum = sum + sqrt(real(number, 8))
      case default; kinds(9) = kinds(9) + 1
      end select
    end do
    print '(a,1x,i4)', trim(line), len_trim(line)
  end do
  matrix = reshape([(real(at, 8) / 3, at = 1, 16)], [4, 4])
  print '(10i8)', kinds
  print '(f12.5,1x,es14.6)', sum, matmul(matrix, transpose(matrix))
  call exit(kinds(9))
end program

# refresh of two shares
autoidx 1
attribute \top 1
attribute \src "refresh.v:1.1-9.10"
module \refresh
  attribute \mask "share x 0"
  wire input 1 \x0
  attribute \mask "share x 1"
  wire input 2 \x1
  attribute \mask "random"
  wire input 3 \r
  attribute \mask "share y 0"
  wire output 4 \y0
  attribute \mask "share y 1"
  wire output 5 \y1
  cell $_XOR_ $xor$1
    connect \A \x0
    connect \B \r
    connect \Y \y0
  end
  cell $_XOR_ $xor$2
    connect \A \x1
    connect \B \r
    connect \Y \y1
  end
end

attribute \top 1
module \gadget
  attribute \mask "clock"
  wire input 1 \clk
  attribute \mask "shares a"
  wire width 2 input 2 \a
  attribute \mask "shares b"
  wire width 2 input 3 \b
  attribute \mask "random"
  wire input 4 \r
  attribute \mask "shares c"
  wire width 2 output 5 \c
  wire \p_0_0
  wire \p_0_1
  wire \p_1_0
  wire \p_1_1
  wire \q_0_1
  wire \q_1_0
  wire \z_0_1
  wire \z_1_0
  cell $_AND_ $g$0
    connect \A \a [0]
    connect \B \b [0]
    connect \Y \p_0_0
  end
  cell $_AND_ $g$1
    connect \A \a [0]
    connect \B \b [1]
    connect \Y \p_0_1
  end
  cell $_AND_ $g$2
    connect \A \a [1]
    connect \B \b [0]
    connect \Y \p_1_0
  end
  cell $_AND_ $g$3
    connect \A \a [1]
    connect \B \b [1]
    connect \Y \p_1_1
  end
  cell $_XOR_ $g$4
    connect \A \p_0_1
    connect \B \r
    connect \Y \q_0_1
  end
  cell $_XOR_ $g$5
    connect \A \p_1_0
    connect \B \r
    connect \Y \q_1_0
  end
  cell $_DFF_P_ $g$6
    connect \C \clk
    connect \D \q_0_1
    connect \Q \z_0_1
  end
  cell $_DFF_P_ $g$7
    connect \C \clk
    connect \D \q_1_0
    connect \Q \z_1_0
  end
  cell $_XOR_ $g$8
    connect \A \p_0_0
    connect \B \z_0_1
    connect \Y \c [0]
  end
  cell $_XOR_ $g$9
    connect \A \p_1_1
    connect \B \z_1_0
    connect \Y \c [1]
  end
end

//! The numbers that the rules works by hand, through this crate's calls. A picture's planes are read by splitting it: the two views
//! hold every sample.

use haythaw::{Avc444Layout, ExclusiveRectangle, PixelCounts, WidthRule, Yuv420Frame, Yuv444Frame};

fn rect([left, top, right, bottom]: [u16; 4]) -> ExclusiveRectangle {
    ExclusiveRectangle { left, top, right, bottom }
}

/// A view whose samples are all 7, with no byte to spare.
fn sevens(width: u16, height: u16) -> Yuv420Frame {
    let (w, h) = (usize::from(width), usize::from(height));
    let chroma = vec![7; w.div_ceil(2) * h.div_ceil(2)];
    Yuv420Frame::new(width, height, vec![7; w * h], w, chroma.clone(), chroma, w.div_ceil(2)).expect("a whole view")
}

/// The planes Y, U and V of a picture, padding included, and their stride. In layout V2 odd columns stand in the auxiliary view's luma,
/// even columns of odd rows in its chroma, and V half or a quarter of the width after U.
fn planes(picture: &Yuv444Frame) -> (usize, [Vec<u8>; 3]) {
    let (main, auxiliary) = picture.split(Avc444Layout::V2).expect("no side is above 65,520");
    let (stride, rows) = (usize::from(main.width()), usize::from(main.height()));
    let chroma = |row: usize, col: usize, of_v: bool| {
        let after = if of_v { stride } else { 0 };
        let (line, at) = match (row % 2, col % 4) {
            (_, 1 | 3) => (auxiliary.luma_row(row), after / 2 + col / 2),
            (0, _) => (if of_v { main.v_row(row / 2) } else { main.u_row(row / 2) }, col / 2),
            (_, 0) => (auxiliary.u_row(row / 2), after / 4 + col / 4),
            _ => (auxiliary.v_row(row / 2), after / 4 + col / 4),
        };
        line.expect("a row")[at]
    };
    let plane = |of_v| (0..stride * rows).map(|at| chroma(at / stride, at % stride, of_v)).collect();
    let luma = (0..rows).flat_map(|row| main.luma_row(row).expect("a row")).copied().collect();
    (stride, [luma, plane(false), plane(true)])
}

/// Where luma and where U is 7: the columns of a picture's first row, padding included, and the rows of its first column.
struct Taken {
    luma_cols: Vec<usize>,
    chroma_cols: Vec<usize>,
    luma_rows: Vec<usize>,
    chroma_rows: Vec<usize>,
}

fn taken(picture: &Yuv444Frame) -> Taken {
    let (stride, [luma, u, _]) = planes(picture);
    let cols = |plane: &[u8]| (0..stride).filter(|&col| plane[col] == 7).collect();
    let rows = |plane: &[u8]| (0..plane.len() / stride).filter(|&row| plane[row * stride] == 7).collect();
    Taken { luma_cols: cols(&luma), chroma_cols: cols(&u), luma_rows: rows(&luma), chroma_rows: rows(&u) }
}

#[test]
fn colours_forward_and_back() {
    for (rgb, back) in [
        ([0, 0, 0], [0, 0, 0]),
        ([255, 255, 255], [254, 254, 254]),
        ([255, 0, 0], [252, 0, 0]),
        ([0, 255, 0], [0, 254, 0]),
        ([0, 0, 255], [0, 0, 252]),
    ] {
        let [r, g, b] = rgb;
        let picture = Yuv444Frame::from_rgba(&[r, g, b, 9].repeat(4), 2, 2).expect("four pixels");
        let [r, g, b] = back;
        assert_eq!(picture.to_rgba(&rect([0, 0, 2, 2])), [r, g, b, 255].repeat(4), "{rgb:?}");
    }
}

/// White pixels and a green one at each place of even row and even column: U is 29 there and 128 around it, V 12 and 128, so that the averages
/// are (29 + 3 * 128 + 2) / 4 = 103 and 99; undone they are 28 and 12, both 30 or more away. The blocks of the odd last row and column
/// are padded with 128, as white is. A grey picture has nothing to replace.
#[test]
fn what_the_filter_replaced() {
    let pixel = |row: usize, col: usize| if row % 2 == 0 && col % 2 == 0 { [0, 255, 0, 0] } else { [255; 4] };
    let pixels: Vec<u8> = (0..3 * 5).flat_map(|at| pixel(at / 5, at % 5)).collect();
    let picture = Yuv444Frame::from_rgba(&pixels, 5, 3).expect("15 pixels");
    for (edges, blocks) in [
        ([0, 0, 5, 3], 6),
        ([0, 0, 65535, 65535], 6),
        ([1, 0, 5, 3], 4),
        ([0, 1, 5, 3], 3),
        ([4, 2, 5, 3], 1),
        ([1, 1, 2, 2], 0),
        ([5, 0, 9, 3], 0),
        ([4, 0, 2, 3], 0),
    ] {
        let (shown, counts) = picture.to_rgba_counted(&rect(edges));
        assert_eq!(counts, PixelCounts { filtered_u: blocks, filtered_v: blocks, stale: 0 }, "{edges:?}");
        assert_eq!(shown, picture.to_rgba(&rect(edges)), "{edges:?}");
    }
    assert_eq!(
        Yuv444Frame::new(5, 3).to_rgba_counted(&rect([0, 0, 5, 3])).1,
        PixelCounts { stale: 15, ..PixelCounts::default() }
    );
}

/// The four cases that are farthest off, in blocks of U above and of V below: an even-even sample x, right of it s, and 0 twice. (40, 1) and
/// (0, 122) have the averages 10 and 31, which are kept: 30 below x, and 31 above. (1, 120) and (0, 126) have 30 and 32, and undone they are
/// 0 and 2: 1 below x, and 2 above. The sides are even, so that no block has padding. What is shown is by the reverse formulas.
#[test]
fn how_far_a_colour_is_off() {
    let (yellow, cyan) = ([255, 255, 0], [0, 255, 245]);
    // the first pixel, the one right of it and those below; the average; how many samples are undone; what is shown of the first pixel
    let blocks = [
        ([[255, 255, 80], [250, 255, 0], yellow], 10, 0, [255, 255, 22]), // of Y 241, U 10, V 138
        ([yellow, [255, 250, 240], yellow], 31, 0, [250, 249, 56]),       // of Y 236, U 31, V 137
        ([[250, 255, 0], [255, 255, 240], yellow], 30, 1, [247, 255, 0]), // of Y 235, U 0, V 136
        ([yellow, [255, 245, 245], yellow], 32, 1, [251, 254, 2]),        // of Y 236, U 2, V 138
        ([[80, 255, 245], [0, 255, 225], cyan], 10, 0, [30, 255, 249]),   // of Y 216, U 146, V 10
        ([cyan, [240, 255, 205], cyan], 31, 0, [46, 242, 219]),           // of Y 199, U 139, V 31
        ([[0, 255, 225], [240, 255, 245], cyan], 30, 1, [0, 255, 223]),   // of Y 198, U 142, V 0
        ([cyan, [250, 255, 225], cyan], 32, 1, [0, 255, 224]),            // of Y 199, U 142, V 2
    ];
    let pixel = |row: usize, col: usize| {
        let [r, g, b] = blocks[row / 2 * 4 + col / 2].0[(row % 2 * 2 + col % 2).min(2)];
        [r, g, b, 0]
    };
    let pixels: Vec<u8> = (0..4 * 8).flat_map(|at| pixel(at / 8, at % 8)).collect();
    for make in [Yuv444Frame::from_rgba, Yuv444Frame::from_rgba_filled] {
        let picture = make(&pixels, 8, 4).expect("32 pixels");
        let (stride, [_, u, v]) = planes(&picture);
        for (k, (_, average, undone, [r, g, b])) in blocks.into_iter().enumerate() {
            let (row, col, of_u) = (k / 4 * 2, k % 4 * 2, k < 4);
            assert_eq!((if of_u { &u } else { &v })[row * stride + col], average, "block {k}");
            let (left, top) = (col as u16, row as u16);
            let (shown, filtered) = picture.to_rgba_counted(&rect([left, top, left + 1, top + 1]));
            let (filtered_u, filtered_v) = if of_u { (undone, 0) } else { (0, undone) };
            let counts = PixelCounts { filtered_u, filtered_v, stale: 0 };
            assert_eq!((shown, filtered), (vec![r, g, b, 255], counts), "block {k}");
        }
    }
}

#[test]
fn rectangles_on_a_picture_of_5_by_5() {
    let none = Vec::<usize>::new;
    for (edges, luma_cols, chroma_cols) in [
        ([5, 0, 5, 4], none(), vec![4, 5]),
        ([4, 0, 4, 4], none(), none()),
        ([3, 0, 6, 2], vec![3, 4, 5], vec![2, 3, 4, 5]),
        ([3, 0, 5, 2], vec![3, 4], vec![2, 3, 4, 5]),
    ] {
        let mut picture = Yuv444Frame::new(5, 5);
        picture.apply_main_view(&sevens(16, 16), &[rect(edges)]);
        let taken = taken(&picture);
        assert_eq!((taken.luma_cols, taken.chroma_cols), (luma_cols, chroma_cols), "{edges:?}");
    }
    let mut picture = Yuv444Frame::new(5, 5);
    picture.apply_main_view(&sevens(16, 16), &[rect([0, 0, 2, 6])]);
    let taken = taken(&picture);
    assert_eq!((taken.luma_rows, taken.chroma_rows), (vec![0, 1, 2, 3, 4], vec![0, 1, 2, 3, 4, 5]));
}

#[test]
fn a_cropped_view_of_layout_v1() {
    let mut picture = Yuv444Frame::new(16, 12);
    picture.apply_auxiliary_view(Avc444Layout::V1, &sevens(16, 12), &[rect([0, 0, 16, 12])]);
    assert_eq!(taken(&picture).chroma_rows, [1, 3, 5, 7]); // row 9 wants V from row 12
}

#[test]
fn a_cropped_view_of_layout_v2() {
    let mut picture = Yuv444Frame::new(20, 16);
    picture.apply_auxiliary_view(Avc444Layout::V2, &sevens(20, 16), &[rect([0, 0, 20, 16])]);
    assert_eq!(taken(&picture).chroma_cols, [1, 3, 5, 7]); // column 9 wants V from column 16 + 4
}

/// By the 32 rule a picture 48 wide has W 64. A view that is 48 wide then has V of the odd columns 1 to 31 alone, since 33 wants it from
/// 32 + 16; and of the even columns 0 to 30, since 32 wants it from 16 + 8, and a chroma row has 24.
#[test]
fn a_cropped_view_by_the_32_rule() {
    let mut picture = Yuv444Frame::new(48, 16);
    picture.apply_auxiliary_view_v2(WidthRule::To32, &sevens(48, 16), &[rect([0, 0, 48, 16])]);
    assert_eq!(taken(&picture).chroma_cols, [1, 3, 5, 7, 9, 11, 13, 15, 17, 19, 21, 23, 25, 27, 29, 31]);
    assert_eq!(taken(&picture).chroma_rows, [1, 3, 5, 7, 9, 11, 13, 15]);
    let (stride, [_, u, v]) = planes(&picture);
    let odd_row = [[7; 32].as_slice(), &[128; 16]].concat();
    assert_eq!((&u[stride..2 * stride], &v[15 * stride..]), (&odd_row[..], &odd_row[..]));
}

/// The rule is over the picture's width, and not the view's: 20 is 32, whether the view is 32 wide or 40. V of column 1 stands at 16.
#[test]
fn the_32_rule_is_of_the_picture() {
    for (width, stride) in [(32, 32), (40, 40)] {
        let mut luma = vec![0; usize::from(width)];
        (luma[0], luma[16]) = (7, 9);
        let chroma = vec![0; luma.len() / 2];
        let view = Yuv420Frame::new(width, 1, luma, stride, chroma.clone(), chroma, stride / 2).expect("a row");
        let mut picture = Yuv444Frame::new(20, 1);
        picture.apply_auxiliary_view_v2(WidthRule::To32, &view, &[rect([0, 0, 20, 1])]);
        let (_, [_, u, v]) = planes(&picture);
        assert_eq!((u[1], v[1]), (7, 9), "a view {width} wide");
    }
}

/// By the rule Exact 20 is 20, however wide the view: V of column 1 stands at 10, and by the 16 rule, of a view 32 wide, at 16.
#[test]
fn the_rule_exact_does_not_round() {
    for width in [20, 32, 40] {
        let mut luma = vec![0; usize::from(width)];
        (luma[0], luma[10], luma[16]) = (7, 9, 11);
        let chroma = vec![0; luma.len() / 2];
        let stride = luma.len();
        let view = Yuv420Frame::new(width, 1, luma, stride, chroma.clone(), chroma, stride / 2).expect("a row");
        let mut picture = Yuv444Frame::new(20, 1);
        picture.apply_auxiliary_view_v2(WidthRule::Exact, &view, &[rect([0, 0, 20, 1])]);
        let (_, [_, u, v]) = planes(&picture);
        assert_eq!((u[1], v[1]), (7, 9), "a view {width} wide");
        if width == 32 {
            picture.apply_auxiliary_view_v2(WidthRule::To16, &view, &[rect([0, 0, 20, 1])]);
            let (_, [_, u, v]) = planes(&picture);
            assert_eq!((u[1], v[1]), (7, 11), "the 16 rule");
        }
    }
    let error = Yuv444Frame::new(20, 1).split_v2(WidthRule::Exact).unwrap_err();
    assert_eq!(error.to_string(), "decoder error: no picture is split by a width that is not rounded");
}

#[test]
fn a_list_of_rectangles_is_served_to_its_end() {
    let mut picture = Yuv444Frame::new(5, 5);
    picture.apply_main_view(&sevens(16, 16), &[rect([4, 0, 4, 4]), rect([0, 0, 1, 1]), rect([4, 0, 5, 1])]);
    let taken = taken(&picture);
    assert_eq!((taken.luma_cols, taken.chroma_cols), (vec![0, 4], vec![0, 1, 4, 5]));
}

#[test]
fn sides_that_split_and_sides_that_do_not() {
    for layout in [Avc444Layout::V1, Avc444Layout::V2] {
        assert!(Yuv444Frame::new(65_520, 0).split(layout).is_ok());
        let error = Yuv444Frame::new(65_521, 0).split(layout).unwrap_err();
        assert_eq!(error.to_string(), "decoder error: padded AVC444 picture exceeds 65535 pixels");
        assert!(Yuv444Frame::new(0, 65_521).split(layout).is_err());
        let (main, auxiliary) = Yuv444Frame::new(0, 20).split(layout).expect("empty views");
        assert_eq!((main.width(), main.height(), auxiliary.luma_row(31)), (0, 32, Some(&[][..])));
    }
}

/// A red picture 16 wide, whose W is 32: the columns past its stride have Y 0, and U and V 128.
#[test]
fn a_split_by_the_32_rule() {
    let red = Yuv444Frame::from_rgba_filled(&[255, 0, 0, 0].repeat(16), 16, 1).expect("16 pixels");
    let (main, auxiliary) = red.split_v2(WidthRule::To32).expect("16 is not too wide");
    assert_eq!((main.width(), main.height(), auxiliary.width(), auxiliary.height()), (32, 16, 32, 16));
    let of = |parts: [(u8, usize); 4]| parts.map(|(byte, count)| vec![byte; count]).concat();
    for row in 0..16 {
        assert_eq!(main.luma_row(row), Some(&of([(53, 16), (0, 16), (0, 0), (0, 0)])[..]));
        assert_eq!(auxiliary.luma_row(row), Some(&of([(99, 8), (128, 8), (255, 8), (128, 8)])[..]));
    }
    for row in 0..8 {
        assert_eq!(main.u_row(row), Some(&of([(99, 8), (128, 8), (0, 0), (0, 0)])[..]));
        assert_eq!(main.v_row(row), Some(&of([(255, 8), (128, 8), (0, 0), (0, 0)])[..]));
        let quarters = of([(99, 4), (128, 4), (255, 4), (128, 4)]);
        assert_eq!((auxiliary.u_row(row), auxiliary.v_row(row)), (Some(&quarters[..]), Some(&quarters[..])));
    }
}

#[test]
fn widths_that_split_by_a_rule_and_widths_that_do_not() {
    for (rule, most) in [(WidthRule::To16, 65_520), (WidthRule::To32, 65_504)] {
        let (main, auxiliary) = Yuv444Frame::new(most, 0).split_v2(rule).expect("views without rows");
        assert_eq!((main.width(), auxiliary.width(), main.height()), (most, most, 0), "{rule:?}");
        let error = Yuv444Frame::new(most + 1, 0).split_v2(rule).unwrap_err();
        assert_eq!(error.to_string(), "decoder error: padded AVC444 picture exceeds 65535 pixels", "{rule:?}");
        assert!(Yuv444Frame::new(0, 65_520).split_v2(rule).is_ok());
        assert!(Yuv444Frame::new(0, 65_521).split_v2(rule).is_err());
    }
}

/// All samples of a view, row after row.
fn samples(view: &Yuv420Frame) -> [Vec<u8>; 3] {
    let rows = |row: fn(&Yuv420Frame, usize) -> Option<&[u8]>| {
        (0..).map_while(|at| row(view, at)).flatten().copied().collect()
    };
    [rows(Yuv420Frame::luma_row), rows(Yuv420Frame::u_row), rows(Yuv420Frame::v_row)]
}

#[test]
fn the_16_rule_is_layout_v2_and_so_is_the_32_rule_on_whole_pairs_of_macroblocks() {
    for (width, alike) in [(64, true), (49, true), (48, false), (33, false), (17, true), (16, false)] {
        let picture =
            Yuv444Frame::from_rgba(&noise(usize::from(width) * 18), width, 18).expect("the pixels are enough");
        let [layout, to16, to32] =
            [picture.split(Avc444Layout::V2), picture.split_v2(WidthRule::To16), picture.split_v2(WidthRule::To32)]
                .map(|views| {
                    views.map(|(main, auxiliary)| [samples(&main), samples(&auxiliary)]).expect("not too wide")
                });
        assert!(to16 == layout, "{width}");
        assert_eq!(to32 == layout, alike, "{width}");
    }
}

/// What a view was split by, it is applied by: the picture comes back whole. A view of the 16 rule, read by the 32 rule where its W is another
/// one, is not the picture.
#[test]
fn a_picture_there_and_back_by_each_rule() {
    let there_and_back = |width: u16, split: WidthRule, apply: WidthRule| {
        let picture =
            Yuv444Frame::from_rgba(&noise(usize::from(width) * 19), width, 19).expect("the pixels are enough");
        let (main, auxiliary) = picture.split_v2(split).expect("not too wide");
        let whole = rect([0, 0, width, 19]);
        let mut shown = Yuv444Frame::new(width, 19);
        shown.apply_main_view(&main, &[whole]);
        shown.apply_auxiliary_view_v2(apply, &auxiliary, &[whole]);
        shown.to_rgba(&whole) == picture.to_rgba(&whole)
    };
    for width in [1, 16, 17, 32, 33, 37, 48, 49, 64, 65] {
        for rule in [WidthRule::To16, WidthRule::To32] {
            assert!(there_and_back(width, rule, rule), "{width}, {rule:?}");
        }
    }
    for (width, alike) in [(48, false), (37, false), (16, false), (64, true), (20, true)] {
        assert_eq!(there_and_back(width, WidthRule::To16, WidthRule::To32), alike, "{width}");
    }
}

/// Red, white and blue in a row: Y, U and V are 53 99 255, 254 128 128 and 17 255 116.
const THREE: [u8; 12] = [255, 0, 0, 0, 255, 255, 255, 9, 0, 0, 255, 255];

/// A row that begins with these samples, and then has the last of them 14 times in all.
fn row([first, second, rest]: [u8; 3]) -> Vec<u8> {
    [vec![first, second], vec![rest; 14]].concat()
}

/// Columns 3 to 15 are blue, and rows 1 to 15 are row 0 again. The first block of each two rows is red, white, red, white, and its averages
/// are U (99 + 128 + 99 + 128 + 2) / 4 = 114 and V (255 + 128 + 255 + 128 + 2) / 4 = 192; every other block is blue four times.
#[test]
fn a_filled_edge() {
    let picture = Yuv444Frame::from_rgba_filled(&THREE, 3, 1).expect("three pixels");
    let (stride, [y, u, v]) = planes(&picture);
    assert_eq!((stride, picture.allocated_bytes()), (16, 3 * 256));
    assert_eq!(y, row([53, 254, 17]).repeat(16));
    assert_eq!(u, [row([114, 128, 255]), row([99, 128, 255])].concat().repeat(8));
    assert_eq!(v, [row([192, 128, 116]), row([255, 128, 116])].concat().repeat(8));
}

/// The padding has Y 0, and U and V 128, and so have the two blocks of the pixels in their other places: the averages are U
/// (99 + 3 * 128 + 2) / 4 = 121 and 160, and V 160 and (116 + 3 * 128 + 2) / 4 = 125.
#[test]
fn an_edge_as_the_original_has_it() {
    let (_, planes) = planes(&Yuv444Frame::from_rgba(&THREE, 3, 1).expect("three pixels"));
    let rest = |first: [u8; 4], rest: u8| [&first[..], &[rest; 252]].concat();
    assert_eq!(planes, [rest([53, 254, 17, 0], 0), rest([121, 128, 160, 128], 128), rest([160, 128, 125, 128], 128)]);
}

#[test]
fn one_pixel_fills_its_planes() {
    let (_, planes) = planes(&Yuv444Frame::from_rgba_filled(&THREE, 1, 1).expect("a pixel"));
    assert_eq!(planes, [53, 99, 255].map(|sample| vec![sample; 256]));
}

/// So many pixels, of many colours.
fn noise(pixels: usize) -> Vec<u8> {
    (0..4 * pixels).map(|at| ((at * 2_654_435_761) >> 13) as u8).collect()
}

/// The planes of a filled edge by its rule, said again: the sample of the nearest pixel, and then the averages.
fn nearest(rgba: &[u8], width: usize, height: usize) -> [Vec<u8>; 3] {
    let (stride, rows) = (width.next_multiple_of(16), height.next_multiple_of(16));
    [[54, 183, 18, 0], [-29, -99, 128, 128], [128, -116, -12, 128]].map(|[r, g, b, more]| {
        let sample = |row: usize, col: usize| {
            let pixel = &rgba[4 * (row.min(height - 1) * width + col.min(width - 1))..];
            let [red, green, blue] = [0, 1, 2].map(|channel| i32::from(pixel[channel]));
            (r * red + g * green + b * blue).div_euclid(256) + more
        };
        let left = |at: usize| match (at / stride, at % stride) {
            (row, col) if more == 128 && row % 2 == 0 && col % 2 == 0 => {
                (sample(row, col) + sample(row, col + 1) + sample(row + 1, col) + sample(row + 1, col + 1) + 2) / 4
            }
            (row, col) => sample(row, col),
        };
        (0..stride * rows).map(|at| left(at) as u8).collect()
    })
}

#[test]
fn each_sample_of_a_filled_edge_is_the_nearest() {
    for (width, height) in [(1, 1), (5, 5), (15, 16), (16, 16), (17, 16), (16, 17), (33, 31)] {
        let rgba = noise(width * height);
        let picture = Yuv444Frame::from_rgba_filled(&rgba, width as u16, height as u16).expect("the pixels are enough");
        assert!(planes(&picture).1 == nearest(&rgba, width, height), "{width} x {height}");
    }
}

#[test]
fn both_edges_agree_on_whole_macroblocks() {
    for (width, height, alike) in [(16, 16, true), (48, 32, true), (5, 5, false), (17, 16, false), (16, 17, false)] {
        let rgba = noise(usize::from(width) * usize::from(height));
        let [filled, fresh] = [Yuv444Frame::from_rgba_filled, Yuv444Frame::from_rgba]
            .map(|make| planes(&make(&rgba, width, height).expect("the pixels are enough")).1);
        assert_eq!(filled == fresh, alike, "{width} x {height}");
    }
}

#[test]
fn a_side_of_0_has_no_edge() {
    for (width, height) in [(0, 0), (0, 5), (5, 0), (65_535, 0)] {
        let picture = Yuv444Frame::from_rgba_filled(&[], width, height).expect("no pixels");
        assert_eq!((picture.width(), picture.height(), picture.allocated_bytes()), (width, height, 0));
    }
}

#[test]
fn pixels_that_are_too_few_for_a_large_picture_allocate_nothing() {
    for make in [Yuv444Frame::from_rgba, Yuv444Frame::from_rgba_filled] {
        assert!(make(&[0; 64], 65_535, 65_535).is_none());
        assert!(make(&[0; 59], 5, 3).is_none());
        assert!(make(&[0; 60], 5, 3).is_some());
        assert!(make(&[0; 61], 5, 3).is_some());
    }
}

#[test]
fn a_stride_too_large_for_the_machine_is_refused() {
    assert!(Yuv420Frame::new(1, 3, vec![0; 9], usize::MAX, vec![0; 9], vec![0; 9], 1).is_err());
    assert!(Yuv420Frame::new(1, 0, vec![], usize::MAX, vec![], vec![], usize::MAX).is_ok());
}

#[test]
fn a_first_unit_of_256_to_511_bytes_is_read_as_annex_b() {
    for (length, avc) in [(255, true), (256, false), (511, false), (512, true)] {
        let mut data = u32::to_be_bytes(length).to_vec();
        data.resize(4 + length as usize, 9);
        assert_eq!(haythaw::is_avc_format(&data), avc, "{length}");
    }
}

#[cfg(debug_assertions)]
#[test]
#[should_panic(expected = "DecodedFrame buffer must be RGBA8888")]
fn a_decoded_frame_has_its_pixels() {
    let _ = haythaw::DecodedFrame::new(vec![0; 3], 1, 1);
}

/// The blocks of a picture's map that are not `other`: row, column and what they hold.
fn blocks(picture: &Yuv444Frame, other: u8) -> Vec<(usize, usize, u8)> {
    let across = usize::from(picture.width()).next_multiple_of(16) / 2;
    let held = picture.map().iter().enumerate();
    held.filter(|(_, &block)| block != other).map(|(k, &block)| (k / across, k % across, block)).collect()
}

/// A fresh picture is 0 in all 64 blocks, one of RGBA 2. The rectangle (5, 0, 5, 4) is empty and widens to columns 4 and 5 and rows 0 to 3:
/// block column 2, block rows 0 and 1. (4, 0, 4, 4) widens to nothing.
#[test]
fn the_map_by_hand() {
    assert_eq!(Yuv444Frame::new(1, 1).map(), [0; 64]);
    assert_eq!(Yuv444Frame::from_rgba(&[9; 4], 1, 1).expect("a pixel").map(), [2; 64]);
    assert_eq!(Yuv444Frame::from_rgba_filled(&[9; 4], 1, 1).expect("a pixel").map(), [2; 64]);

    let mut picture = Yuv444Frame::new(5, 5);
    let view = sevens(16, 16);
    picture.apply_main_view(&view, &[rect([4, 0, 4, 4])]);
    assert!(blocks(&picture, 0).is_empty());
    picture.apply_auxiliary_view(Avc444Layout::V1, &view, &[rect([0, 0, 5, 5])]);
    assert!(blocks(&picture, 0).is_empty(), "no block had a main view");
    picture.apply_main_view(&view, &[rect([5, 0, 5, 4])]);
    assert_eq!(blocks(&picture, 0), [(0, 2, 1), (1, 2, 1)]);
    assert_eq!(picture.to_rgba_counted(&rect([0, 0, 5, 5])).1.stale, 25);
    picture.apply_auxiliary_view_v2(WidthRule::To16, &view, &[rect([4, 2, 5, 3])]);
    assert_eq!(blocks(&picture, 0), [(0, 2, 1), (1, 2, 2)]);
    assert_eq!(
        picture.to_rgba_counted(&rect([0, 0, 5, 5])).1.stale,
        23,
        "a block at the odd right edge has two pixels"
    );
    picture.apply_main_view(&view, &[rect([4, 2, 5, 3])]);
    assert_eq!(blocks(&picture, 0), [(0, 2, 1), (1, 2, 1)], "a main view over 2");
}

/// Of a view of 16 by 12 a main view marks block rows 0 to 5; V1 completes 0 to 3, since the V rows of rows 9 and 11 are absent. V2 with a
/// view 20 wide, so W 32, completes block columns 0 to 3; with one of 16 by 5, block rows 0 and 1.
#[test]
fn what_a_view_completes() {
    let whole = [rect([0, 0, 65535, 65535])];
    let mut picture = Yuv444Frame::new(16, 16);
    picture.apply_main_view(&sevens(16, 12), &whole);
    assert!(
        blocks(&picture, 1).iter().all(|&(row, _, block)| row >= 6 && block == 0) && blocks(&picture, 0).len() == 6 * 8
    );
    picture.apply_auxiliary_view(Avc444Layout::V1, &sevens(16, 12), &whole);
    assert!(
        picture.map()[..4 * 8].iter().all(|&block| block == 2)
            && picture.map()[4 * 8..6 * 8].iter().all(|&block| block == 1)
    );

    let mut picture = Yuv444Frame::new(20, 16);
    picture.apply_main_view(&sevens(20, 16), &whole);
    picture.apply_auxiliary_view(Avc444Layout::V2, &sevens(20, 16), &whole);
    assert!(blocks(&picture, 0).iter().all(|&(_, col, block)| block == if col < 4 { 2 } else { 1 }));

    let mut picture = Yuv444Frame::new(16, 16);
    picture.apply_main_view(&sevens(16, 5), &whole);
    picture.apply_auxiliary_view(Avc444Layout::V2, &sevens(16, 5), &whole);
    assert!(
        blocks(&picture, 0).iter().all(|&(row, _, block)| block == if row < 2 { 2 } else { 1 })
            && blocks(&picture, 0).len() == 3 * 8
    );
}

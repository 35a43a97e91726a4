//! The row of times. The columns of the flush stand as in `bands.rs`: the start begins at 70 and sample 0 at
//! 118, 3 samples have columns of 80, 20 of 36 and 63 of 16. A cell of a time has 6 pixels.
use super::words::words_fit;
use super::*;

/// The flush on so many samples, all 0, with these times.
fn timed(count: usize, time: impl Fn(usize) -> String) -> Scene {
    Scene {
        times: (0..count).map(time).collect(),
        ..flush(&vec![0; count])
    }
}

/// The times that are shown, with their middles.
fn shown(scene: &Scene) -> Vec<(String, String)> {
    let drawn = drawn(scene);
    assert_eq!(words_fit(&drawn), Ok(()));
    let places = values(&drawn, "time", "x");
    texts(&drawn, "time").into_iter().zip(places).collect()
}

/// How many times are shown of this length, which includes a blank.
fn count(samples: usize, cells: usize) -> usize {
    shown(&timed(samples, |_| format!("{} s", "1".repeat(cells - 2)))).len()
}

#[test]
fn without_times_there_is_no_row() {
    let none = flush(&[0, 1, 0]);
    for times in [vec![], vec![String::new(); 3]] {
        let scene = Scene {
            times,
            ..none.clone()
        };
        assert_eq!(draw(&scene), draw(&none));
        assert_eq!(texts(&drawn(&scene), "time"), [""; 0]);
    }
    // times of samples that are not there
    let more = Scene {
        times: vec!["5 ns".to_string()],
        ..flush(&[])
    };
    assert_eq!(draw(&more), draw(&flush(&[])));
}

#[test]
fn each_time_stands_below_its_sample_as_it_was_given() {
    let times = ["5 ns", "3.5 us", "1000000 ticks"];
    let scene = Scene {
        times: times.map(String::from).to_vec(),
        ..flush(&[0, 1, 0])
    };
    // 13 cells of 6 are 79, and 14 more do not fit into 80: every second time
    let pair = |time: &str, x: &str| (time.to_string(), x.to_string());
    assert_eq!(
        shown(&scene),
        [pair("5 ns", "158"), pair("1000000 ticks", "318")]
    );
    let drawn = drawn(&Scene {
        times: ["5 ns", "15 ns", "25 ns"].map(String::from).to_vec(),
        ..scene
    });
    assert_eq!(texts(&drawn, "time"), ["5 ns", "15 ns", "25 ns"]);
    assert_eq!(values(&drawn, "time", "x"), ["158", "238", "318"]);
    // the axis begins at 108 and the row at 128; all below it is 18 lower than without it
    assert_eq!(values(&drawn, "time", "y"), vec!["139"; 3]);
    assert_eq!(texts(&drawn, "name")[..3], ["sample", "time", "ack"]);
    assert_eq!(
        values(&drawn, "wave", "d")[0],
        "M118 170H198V152H278V170H358"
    );
}

#[test]
fn a_time_that_is_not_known_is_left_out() {
    let scene = Scene {
        times: ["5 ns", "", "25 ns"].map(String::from).to_vec(),
        ..flush(&[0, 1, 0])
    };
    assert_eq!(texts(&drawn(&scene), "time"), ["5 ns", "25 ns"]);
    // fewer times than samples
    let scene = Scene {
        times: vec!["5 ns".to_string()],
        ..scene
    };
    assert_eq!(texts(&drawn(&scene), "time"), ["5 ns"]);
}

#[test]
fn where_columns_are_narrow_some_times_are_left_out() {
    // columns of 36: 3 cells take 19 and 14 more, 4 take 25 and 14 more
    assert_eq!([count(20, 3), count(20, 4)], [20, 10]);
    // two columns have room for 9 cells, which take 55 and 14 more, and not for 10
    assert_eq!([count(20, 9), count(20, 10)], [10, 7]);
    // columns of 16 have every fifth number, and a time stands below a number: 10 cells take 61 and 14
    // more, 11 take 67 and 14 more
    assert_eq!([count(63, 10), count(63, 11)], [13, 7]);
    let long = shown(&timed(63, |sample| format!("{}.5 us", 1_234_567 + sample)));
    let wanted = [0, 10, 20, 30, 40, 50, 60].map(|sample| {
        let x = 118 + sample * 16 + 8;
        (format!("{}.5 us", 1_234_567 + sample), x.to_string())
    });
    assert_eq!(long, wanted);
    // the widest counts, wherever it stands
    let one = |sample: usize| match sample {
        62 => "1234567.5 us".to_string(),
        _ => "1 s".to_string(),
    };
    assert_eq!(shown(&timed(63, one)).len(), 7);
}

#[test]
fn the_first_time_stays_off_the_name_of_the_row() {
    // 26 cells take 157: they begin where the start does, at 70, and have their middle at 148, which is 22
    // right of that of sample 0; so 15 columns of 16 are the least that have room for 157 + 22 + 14
    let long = shown(&timed(63, |_| "18446744073709551615 ticks".to_string()));
    let places: Vec<&str> = long.iter().map(|(_, x)| x.as_str()).collect();
    assert_eq!(places, ["148", "366", "606", "846", "1086"]);
}

#[test]
fn an_endless_time_is_shortened_and_stands_whole_in_a_title() {
    let endless = format!("{} ns", "1".repeat(300));
    let scene = timed(1, |_| endless.clone());
    let drawn = drawn(&scene);
    assert_eq!(words_fit(&drawn), Ok(()));
    // 28 cells: 14 of the beginning, the dots, 13 of the end
    let shown = format!("{}…{} ns", "1".repeat(14), "1".repeat(10));
    let label = drawn.iter().position(|element| element.text == shown);
    let title = &drawn[label.unwrap() + 1];
    assert_eq!((title.tag.as_str(), &title.text), ("title", &endless));
}

#[test]
fn the_flag_has_the_time_of_the_closing_sample() {
    let times = (0..5).map(|sample| format!("{}5 ns", sample + 1));
    let scene = Scene {
        times: times.collect(),
        ..flush(&[0, 1, 0, 2, 4])
    };
    let drawn = drawn(&scene);
    assert_eq!(texts(&drawn, "flag"), ["closed at sample 3, 45 ns"]);
    // 25 cells of 6.6 are 166, and 12 more
    let flag = drawn
        .iter()
        .find(|element| element.tag == "rect" && element.get("height") == "18");
    assert_eq!(flag.unwrap().get("width"), "178");
    // no time is in the way of the line, which ends with the levels: 168 + 3 * 28 + 24 + 12 + 56 + 20
    assert_eq!(values(&drawn, "pole", "d"), ["M358 108V364"]);
}

#[test]
fn the_line_of_the_flag_leaves_out_a_time_that_is_in_its_way() {
    let mut samples = vec![0; 63];
    samples[62] = 3;
    let scene = Scene {
        times: vec!["1234567.5 us".to_string(); 63],
        ..flush(&samples)
    };
    // the time of sample 60 has its middle at 118 + 60 * 16 + 8 = 1086 and reaches over 1110, where sample
    // 62 begins; the row takes 150 to 168
    let path = |scene: &Scene| values(&drawn(scene), "pole", "d").concat();
    assert_eq!(path(&scene), "M1110 108V150M1110 168V364");
    // 118 + 55 * 16 = 998 is between the times of samples 50 and 60
    let mut samples = vec![0; 63];
    samples[55] = 3;
    let between = Scene {
        times: scene.times,
        ..flush(&samples)
    };
    assert_eq!(path(&between), "M998 108V364");
}

#[test]
fn many_rows_have_the_times_once_more_above_the_levels() {
    let list: Vec<String> = (0..17).map(|number| format!("bus_{number}")).collect();
    let list: Vec<&str> = list.iter().map(String::as_str).collect();
    let scene = Scene {
        times: vec!["5 ns".to_string(), "6 ns".to_string()],
        ..scene(&strong_a(), &list, &[0, 0])
    };
    let drawn = drawn(&scene);
    assert_eq!(texts(&drawn, "time"), ["5 ns", "6 ns", "5 ns", "6 ns"]);
    // the axis begins at 130 below the flag, the signals at 168 and the second axis at 168 + 17 * 28 = 644
    assert_eq!(values(&drawn, "time", "y"), ["161", "161", "675", "675"]);
}

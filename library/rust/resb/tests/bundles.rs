use resb::{
    alias_targets, check, check_for_icu, compile, lint, sys, Bundle, Bundles, Child, Content,
    Error, Item, Place,
};

const GERMAN: &str = "de{greeting{\"Grüß\"} low:int{-1} v:intvector{1,-2} b:bin{00ff} e:bin{\"\"} \
                      list{\"a\",\"bc\"} menu{open{\"Auf\"} close{\"Zu\"}}}";

fn opened() -> Bundles {
    let mut bundles = Bundles::open().unwrap();
    bundles
        .install("shop", "de", Content::Text(GERMAN))
        .unwrap();
    bundles
}

fn error(number: u32) -> Error {
    Error {
        number,
        place: Place::Unknown,
    }
}

#[test]
fn finds_each_kind() {
    let bundles = opened();
    let look = |path| bundles.look("shop", "de_AT", path).unwrap();
    let greeting: Vec<u16> = "Grüß".encode_utf16().collect();
    assert_eq!(look("greeting"), Item::String(&greeting));
    assert_eq!(look("low"), Item::Int(-1));
    assert_eq!(look("v"), Item::IntVector(&[1, -2]));
    assert_eq!(
        (look("b"), look("e")),
        (Item::Binary(&[0, 255]), Item::Binary(&[]))
    );
    assert_eq!(
        (look("list"), look("menu")),
        (Item::Array(2), Item::Table(2))
    );
    assert_eq!(bundles.text("shop", "de_AT", "list/1").unwrap(), "bc");
    assert_eq!(
        bundles.text("shop", "de_AT", "low"),
        Err(error(sys::RESB_OTHER_KIND))
    );
    assert_eq!(bundles.key("shop", "de", "menu", 0).unwrap(), "close");
    assert_eq!(
        bundles.key("shop", "de", "menu", 2),
        Err(error(sys::RESB_NO_ENTRY))
    );
}

#[test]
fn changes_and_counts() {
    let mut bundles = opened();
    let file = compile(GERMAN).unwrap();
    assert_eq!(check(&file), Ok(()));
    for index in 0..100 {
        bundles
            .install("many", &format!("de_{index:03}"), Content::File(&file))
            .unwrap();
    }
    let names: Vec<_> = (0..100).map(|index| format!("de_{index:03}")).collect();
    assert_eq!(bundles.list("many").unwrap(), names);
    assert_eq!(
        bundles.usage("many").unwrap(),
        (100 * file.len() as u64, 100)
    );
    assert_eq!(bundles.apps().unwrap(), 2);
    let opened = bundles.open_locale("shop", "de_AT").unwrap();
    assert_eq!(bundles.look_at(&opened, "low"), Ok(Item::Int(-1)));
    // de_AT, de and root, each a step, and one more for the segment
    let within = |steps| bundles.look_at_within(&opened, "low", steps);
    assert_eq!(within(6), Ok(Item::Int(-1)));
    assert_eq!(within(5), Err(error(sys::RESB_TOO_MANY_STEPS)));
    bundles
        .replace("shop", "de", Content::Text("de{greeting{\"Tag\"}}"))
        .unwrap();
    assert_eq!(bundles.look_at(&opened, "low"), Err(error(sys::RESB_STALE)));
    assert_eq!(bundles.text("shop", "de", "greeting").unwrap(), "Tag");
    bundles.remove("shop", "de").unwrap();
    assert_eq!(
        bundles.look("shop", "de", ""),
        Err(error(sys::RESB_NO_BUNDLE))
    );
}

#[test]
fn changes_a_snapshot() {
    let bundles = opened();
    let reader = bundles.share().unwrap();
    let german = bundles.text("shop", "de", "greeting").unwrap();
    let here = reader.open_locale("shop", "de").unwrap();
    let mut next = bundles.snapshot().unwrap();
    let text = Content::Text("de{greeting{\"Tag\"}}");
    next.replace("shop", "de", text).unwrap();
    assert_eq!(reader.text("shop", "de", "greeting").unwrap(), german);
    drop((bundles, reader));
    assert_eq!(next.text("shop", "de", "greeting").unwrap(), "Tag");
    assert_eq!(next.look_at(&here, ""), Err(error(sys::RESB_STALE)));
}

#[test]
fn lists_children() {
    let mut bundles = opened();
    let text = "xx{a:alias{\"/LOCALE/b\"} b{\"c\"} l{\"d\",:int{-1}} t:table{}}";
    bundles.install("shop", "xx", Content::Text(text)).unwrap();
    let (target, c): (Vec<u16>, Vec<u16>) = ("/LOCALE/b".encode_utf16().collect(), vec![0x63]);
    assert_eq!(
        bundles.children("shop", "xx_YY", "").unwrap(),
        [
            ("a", Child::Alias(&target)),
            ("b", Child::Item(Item::String(&c))),
            ("l", Child::Item(Item::Array(2))),
            ("t", Child::Item(Item::Table(0)))
        ]
    );
    let items = bundles.children("shop", "xx", "l").unwrap();
    assert_eq!(items[1], ("", Child::Item(Item::Int(-1))));
    assert_eq!(bundles.children("shop", "xx", "t"), Ok(vec![]));
    let other = bundles.children("shop", "xx", "b");
    assert_eq!(other, Err(error(sys::RESB_OTHER_KIND)));
}

#[test]
fn names_errors() {
    let mut bundles = opened();
    let bad_int = compile("de{\na:int{09}}").unwrap_err();
    assert_eq!(
        (bad_int.number, bad_int.place),
        (sys::RESB_TEXT_BAD_INT, Place::Line(2))
    );
    assert_eq!(bad_int.to_string(), "TextBadInt, line 2");
    assert_eq!(check(b"").unwrap_err().name(), "FileHeader");
    let twice = bundles.install("shop", "de", Content::Text(GERMAN));
    assert_eq!(twice, Err(error(sys::RESB_EXISTS)));
    // de and root, each a step, and one more for the segment
    assert_eq!(
        bundles.look_within("shop", "de", "low", 4),
        Ok(Item::Int(-1))
    );
    let few = bundles.look_within("shop", "de", "low", 3);
    assert_eq!(few, Err(error(sys::RESB_TOO_MANY_STEPS)));
}

#[test]
fn opens_with_icudata_and_parents() {
    let file = compile("root{months{\"M01\"}}").unwrap();
    let icudata = [("root", Content::File(&file)), ("de", Content::Text("de{"))];
    let bad_text = Bundles::open_with(&icudata, "").err().unwrap();
    assert_eq!(bad_text.to_string(), "BadText, bundle 1 of ICUDATA");
    let bad_parents = Bundles::open_with(&icudata[..1], "x{\nparentLocales{")
        .err()
        .unwrap();
    assert_eq!(bad_parents.to_string(), "TextUnexpected, line 2");
    let parents = "x{parentLocales{root{\"zh_Hant\"}}}";
    let mut bundles = Bundles::open_with(&icudata[..1], parents).unwrap();
    bundles
        .install("shop", "root", Content::Text("root{x{\"root\"}}"))
        .unwrap();
    assert_eq!(bundles.text("shop", "zh_Hant_TW", "x").unwrap(), "root");
}

#[test]
fn looks_up_on_several_threads() {
    let mut bundles = opened();
    let shares: Vec<_> = (0..4).map(|_| bundles.share().unwrap()).collect();
    assert_eq!(bundles.remove("shop", "de"), Err(error(sys::RESB_SHARED)));
    let looks = |mine: Bundles| {
        std::thread::spawn(move || {
            (0..1000).all(|_| mine.text("shop", "de_AT", "menu/open").as_deref() == Ok("Auf"))
        })
    };
    let threads: Vec<_> = shares.into_iter().map(looks).collect();
    assert!(threads.into_iter().all(|thread| thread.join().unwrap()));
    assert_eq!(bundles.remove("shop", "de"), Ok(()));
}

fn prepared(text: &str) -> Bundle {
    Bundle::prepare(Content::Text(text)).unwrap()
}

#[test]
fn prepares_bundles() {
    let bundle = prepared("x{a{\"b\"} n:int{-1}}");
    assert_eq!(
        bundle.text("de-at").unwrap(),
        "de_AT {\n    a { \"b\" }\n    n:int { 268435455 }\n}\n"
    );
    assert_eq!(bundle.json().unwrap(), "{\"a\":\"b\",\"n\":-1}");
    let again = Bundle::from_json("{\"n\":-1,\"a\":\"b\"}").unwrap();
    let file = again.file().unwrap();
    assert_eq!(
        (bundle.file().unwrap(), check_for_icu(&file)),
        (file, Ok(()))
    );
    let copy = bundle.try_clone().unwrap();
    drop(bundle);
    assert_eq!(copy.file().unwrap(), again.file().unwrap());
    let refused = Bundle::from_json("{\n\"a\": 1.5}").err().unwrap();
    assert_eq!(refused.to_string(), "JsonBadNumber, line 2");
    let refused = Bundle::prepare(Content::Text("de{\na:int{09}}")).err();
    assert_eq!(refused.unwrap().to_string(), "TextBadInt, line 2");
    let alias = compile("de{\"%%ALIAS\"{\"de\"}}").unwrap();
    assert_eq!(check(&alias), Ok(()));
    assert_eq!(check_for_icu(&alias), Err(error(sys::RESB_ICU_ALIAS)));
}

#[test]
fn lints_texts() {
    let text = b"de{\na{\"b\" \"c\", \"d\"}\nb:int{09}\n}";
    let (found, more) = lint(text, "de", 10).unwrap();
    let places: Vec<_> = found
        .iter()
        .map(|one| (one.line, one.column, one.is_error, one.rule.as_str()))
        .collect();
    assert_eq!(
        places,
        [(2, 6, false, "joined-strings"), (3, 7, true, "BadInt")]
    );
    assert!(more == 0 && found[1].message.contains("'09'"));
    let (found, more) = lint(text, "", 0).unwrap();
    assert!(more == 1 && found.len() == 1 && found[0].is_error);
    assert_eq!(
        lint(b"de{a{\"b\"}}", "fr", 10).unwrap().0[0].rule,
        "bundle-name"
    );
}

#[test]
fn lists_alias_targets() {
    let text = "de{a:alias{\"fr/x\"} b:alias{\"/ICUDATA/de/y\"} c:alias{\"fr/z\"}}";
    let file = compile(text).unwrap();
    assert_eq!(alias_targets(&file).unwrap(), ["/ICUDATA/de", "fr"]);
    let none = compile("de{a{\"b\"}}").unwrap();
    assert_eq!(alias_targets(&none), Ok(vec![]));
    assert_eq!(alias_targets(&[]), Err(error(sys::RESB_FILE_HEADER)));
}

#[test]
fn releases_bundles() {
    let mut bundles = opened();
    let root = prepared("x{open{\"Open\"} menu{quit{\"Quit\"}}}");
    bundles
        .release(
            "shop",
            vec![("root", Some(root)), ("de", Some(prepared(GERMAN)))],
        )
        .unwrap();
    assert_eq!(
        bundles.item_json("shop", "de_AT", "open", 1000).unwrap(),
        "{\"actual\":\"root\",\"type\":\"string\",\"valid\":\"de\",\"value\":\"Open\"}"
    );
    let long = bundles.item_json_within("shop", "de_AT", "open", 1000, 60);
    assert_eq!(long, Err(error(sys::RESB_REPLY_TOO_LONG)));
    let long = bundles.tree_json_within("shop", "de_AT", "menu", 1000, 40);
    assert_eq!(long, Err(error(sys::RESB_TREE_TOO_LARGE)));
    assert_eq!(
        bundles.tree_json_within("shop", "de_AT", "menu", 1000, 41),
        bundles.tree_json("shop", "de_AT", "menu", 1000)
    );
    assert_eq!(
        bundles.tree_json("shop", "de_AT", "menu", 1000).unwrap(),
        "{\"close\":\"Zu\",\"open\":\"Auf\",\"quit\":\"Quit\"}"
    );
    assert_eq!(
        bundles.tree_json("shop", "de_AT", "menu", 1),
        Err(error(sys::RESB_TOO_MANY_STEPS))
    );
    let refused = bundles.release("shop", vec![("root", None), ("fr", None)]);
    assert_eq!(refused.unwrap_err().to_string(), "Absent, edit 1");
    assert_eq!(bundles.list("shop").unwrap(), ["de", "root"]);
    bundles.release("shop", vec![("root", None)]).unwrap();
    assert_eq!(bundles.list("shop").unwrap(), ["de"]);
}

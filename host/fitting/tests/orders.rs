//! Sets of values, orders, and lists of them.

use fitting::{Full, Order, OrderList, OrderRefusal, Refusal, Values};
use std::collections::HashSet;
use std::num::NonZeroU16;

#[test]
fn a_set_is_its_mask() {
    for mask in [0, 1, 6, 0x8000_0000, 0xF0F0_1234, u32::MAX] {
        let values = Values::from_mask(mask);
        let expected: Vec<u8> = (0..32).filter(|value| mask >> value & 1 == 1).collect();
        assert_eq!(values.mask(), mask);
        assert!(values.iter().eq(expected.iter().copied()));
        assert!(values.iter().rev().eq(expected.iter().rev().copied()));
        assert_eq!([values.len(), values.iter().len()], [expected.len(); 2]);
        assert_eq!(values.is_empty(), expected.is_empty());
        assert!((0..=255).all(|value| values.contains(value) == expected.contains(&value)));
        assert_eq!(values.single(), (expected.len() == 1).then(|| expected[0]));
        assert_eq!(Values::of(expected.iter().rev().copied()), Ok(values));
        let words: Vec<String> = expected.iter().map(u8::to_string).collect();
        assert_eq!(values.to_string(), words.join(" "));
        assert_eq!(format!("{values:?}"), format!("{{{}}}", words.join(", ")));
    }
    assert_eq!(Values::of([1, 32]), Err(OrderRefusal::Mask));
}

#[test]
fn a_set_is_taken_from_both_ends() {
    let mut values = Values::from_mask(0x8000_0013).iter();
    assert_eq!([values.next(), values.next_back()], [Some(0), Some(31)]);
    assert_eq!([values.next_back(), values.next()], [Some(4), Some(1)]);
    assert_eq!([values.next_back(), values.next()], [None; 2]);
}

#[test]
fn orders_have_their_bytes_and_read_back() {
    let values = Values::from_mask(0x8421_0001);
    let limit = NonZeroU16::new(0x0102).unwrap();
    for (order, bytes, free) in [
        (
            Order::Narrow { column: 15, values },
            [1, 15, 0, 0, 1, 0, 0x21, 0x84],
            0b1111_0010,
        ),
        (Order::Mark, [2, 0, 0, 0, 0, 0, 0, 0], 0),
        (Order::Back { mark: 16 }, [3, 16, 0, 0, 0, 0, 0, 0], 0b10),
        (Order::Finish, [4, 0, 0, 0, 0, 0, 0, 0], 0b11_0000),
        (
            Order::FinishWithin { limit },
            [4, 0, 0, 0, 2, 1, 0, 0],
            0b11_0000,
        ),
    ] {
        assert_eq!(order.bytes(), bytes);
        assert_eq!(Order::from(bytes), order);
        // Where another byte than the free ones is changed, it is one of these no longer.
        for at in 0..8 {
            let mut changed = bytes;
            changed[at] ^= 0x80;
            let raw = Order::from(changed) == Order::Raw(changed);
            assert_eq!(raw, free >> at & 1 == 0, "{changed:?}");
            assert_eq!(Order::from(changed).bytes(), changed);
        }
    }
}

/// "Bytes 4 to 7 of a finish become a limit from 1 to 65,535; 0 is read as 65,535": 0 is the finish that names
/// none, and a larger one is none of the orders.
#[test]
fn every_limit_reads_back() {
    for (number, bytes) in (0..=65_536_u32).map(|limit| (limit, limit.to_le_bytes())) {
        let [a, b, c, d] = bytes;
        let bytes = [4, 0, 0, 0, a, b, c, d];
        let limit = u16::try_from(number).map(NonZeroU16::new);
        let order = match limit {
            Ok(Some(limit)) => Order::FinishWithin { limit },
            Ok(None) => Order::Finish,
            Err(_) => Order::Raw(bytes),
        };
        assert_eq!((Order::from(bytes), order.bytes()), (order, bytes));
    }
    assert_eq!(Order::MOST_TRIES.get(), 65_535);
}

#[test]
fn a_list_is_its_orders() -> Result<(), Full> {
    let values = Values::from_mask(5);
    let limit = Order::MOST_TRIES;
    let orders = [
        Order::Narrow { column: 2, values },
        Order::Mark,
        Order::Back { mark: 7 },
        Order::Finish,
        Order::FinishWithin { limit },
    ];
    let mut list = OrderList::new();
    list.narrow(2, values)?.mark()?.back(7)?.finish()?;
    list.finish_within(limit)?;
    assert_eq!(list, OrderList::of(orders)?);
    assert!(list.iter().rev().eq(orders.into_iter().rev()));
    assert_eq!(list.iter().len(), 5);
    let shown = "[Narrow { column: 2, values: {0, 2} }, Mark, Back { mark: 7 }, Finish, \
                 FinishWithin { limit: 65535 }]";
    assert_eq!(format!("{list:?}"), shown);
    Ok(())
}

/// Two lists with the same orders are the same, whatever stood in them before.
#[test]
fn what_was_taken_away_is_gone() {
    let mut list = OrderList::of([Order::Mark, Order::Finish, Order::Finish]).unwrap();
    let mut seen = HashSet::from([list.clone()]);
    assert_eq!([list.pop(), list.pop()], [Some(Order::Finish); 2]);
    let mark = OrderList::of([Order::Mark]).unwrap();
    assert_eq!(list, mark);
    assert!(seen.insert(list.clone()) && !seen.insert(mark));
    list.truncate(5);
    assert_eq!(list.len(), 1);
    list.truncate(0);
    assert_eq!((list.pop(), &list), (None, &OrderList::default()));
    list.mark().unwrap().clear();
    assert!(list.is_empty() && list.as_bytes().is_empty());
}

#[test]
fn a_full_list_stays_as_it_was() {
    let orders = (0..=255).map(|mark| Order::Back { mark });
    let mut list = OrderList::of(orders.clone()).unwrap();
    let before = list.clone();
    assert!(list.push(Order::Mark).is_err_and(|full| full == Full));
    assert!(list.narrow(0, Values::NONE).is_err());
    assert!(list.mark().is_err() && list.back(1).is_err() && list.finish().is_err());
    assert!(list.finish_within(Order::MOST_TRIES).is_err());
    assert_eq!(list, before);
    assert_eq!(OrderList::of(orders.chain([Order::Mark])), Err(Full));
}

/// Of any length only those are read that no run refuses.
#[test]
fn lists_over_the_wire() {
    let bytes: Vec<u8> = (0..3_000).map(|i| (i % 251) as u8).collect();
    for length in 0..bytes.len() {
        let right = length.is_multiple_of(8) && length <= 2_048;
        match OrderList::from_bytes(&bytes[..length]) {
            Ok(list) => assert!(right && list.as_bytes() == &bytes[..length]),
            Err(refusal) => assert!(!right && refusal == Refusal::Orders),
        }
    }
}

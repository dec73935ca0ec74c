//! Layer allocations of four streams, each with four layers. They are written here by the document of the
//! extension (video-layers-allocation00), and read by the library.

use rtp_wire::{
    Header, Kind, Layer, Layers, Map, NotWritten, Packet, Resolution, Stream, TooManyLayers, Values,
};

/// A layer: the rates of its temporal layers, and its resolution. One without rates isn't active.
type Given = (Vec<u64>, Option<(u16, u16, u8)>);

const MAP: Map = Map::new()
    .with(77, Kind::Layers)
    .with(9, Kind::VideoContentType);

/// Seven bits a byte, the low ones first; each byte but the last has the top bit.
fn leb128(mut number: u64, bytes: &mut Vec<u8>) {
    while number > 127 {
        bytes.push(number as u8 | 0x80);
        number >>= 7;
    }
    bytes.push(number as u8);
}

/// Two numbers of four bits a byte, or four of two, the high ones first.
fn packed(numbers: &[u8], bits: usize, bytes: &mut Vec<u8>) {
    for chunk in numbers.chunks(8 / bits) {
        let at = |(index, number)| number << (8 - bits - bits * index);
        bytes.push(chunk.iter().enumerate().map(at).sum());
    }
}

/// The bytes of an allocation, of which no mask is shared.
fn bytes_of(current: u8, streams: &[Vec<Given>]) -> Vec<u8> {
    let mut bytes = vec![current << 6 | (streams.len() as u8 - 1) << 4];
    let mask = |layers: &Vec<Given>| {
        let bits = layers
            .iter()
            .enumerate()
            .map(|(bit, (rates, _))| u8::from(!rates.is_empty()) << bit);
        bits.sum()
    };
    packed(&streams.iter().map(mask).collect::<Vec<_>>(), 4, &mut bytes);
    let active: Vec<&Given> = streams
        .iter()
        .flatten()
        .filter(|(rates, _)| !rates.is_empty())
        .collect();
    packed(
        &active
            .iter()
            .map(|(rates, _)| rates.len() as u8 - 1)
            .collect::<Vec<_>>(),
        2,
        &mut bytes,
    );
    for (rates, _) in &active {
        for rate in rates {
            leb128(*rate, &mut bytes);
        }
    }
    for (width, height, framerate) in active.iter().filter_map(|(_, resolution)| *resolution) {
        bytes.extend((width - 1).to_be_bytes());
        bytes.extend((height - 1).to_be_bytes());
        bytes.push(framerate);
    }
    bytes
}

/// A datagram with the content type 1, the allocation, and the payload 0x55.
fn datagram(allocation: &[u8]) -> Vec<u8> {
    let mut bytes = vec![
        0x90, 0, 0, 1, 0, 0, 0, 2, 0, 0, 0, 3, 0x10, 0, 0, 66, 9, 1, 1, 77,
    ];
    bytes.push(allocation.len() as u8);
    bytes.extend_from_slice(allocation);
    bytes.resize(16 + 4 * 66, 0);
    bytes.push(0x55);
    bytes
}

/// What all of the calls tell of it.
fn read(allocation: &[u8]) -> Option<Layers> {
    let datagram = datagram(allocation);
    let (header, layers) = Header::parse_with_layers(&datagram, &MAP).unwrap();
    let mut values = Values::default();
    values.video_content_type = Some(1);
    assert_eq!((header.values, header.header_len()), (values, 280));
    assert_eq!(Header::parse(&datagram, &MAP), Ok(header));
    assert_eq!(Packet::parse(&datagram).unwrap().values(&MAP), values);
    layers
}

fn given(layer: &Layer) -> Given {
    let resolution = layer.resolution();
    let numbers = |Resolution {
                       width,
                       height,
                       framerate,
                   }| (width, height, framerate);
    (layer.kbps().to_vec(), resolution.map(numbers))
}

/// Four streams of four layers of one to four rates, of which all numbers differ.
fn full() -> Vec<Vec<Given>> {
    let layer = |number: u64| {
        let rates = (0..=number % 4)
            .map(|rate| 1_000 + 10 * number + rate)
            .collect();
        let number = number as u16;
        (
            rates,
            Some((
                0x1122 + 0x0102 * number,
                0x3344 + 0x0304 * number,
                0x71 + number as u8,
            )),
        )
    };
    let mut streams: Vec<Vec<Given>> = (0..4)
        .map(|stream| (0..4).map(|it| layer(4 * stream + it)).collect())
        .collect();
    streams[0][0].0 = vec![0x7EDC_BA98_7654_3210]; // nine bytes
    streams[2][3].0 = vec![0, 127, 128, (1 << 32) + 5];
    streams[1][0].1 = Some((1, 65_535, 255));
    streams[3][1].1 = Some((65_535, 1, 0));
    streams
}

#[test]
fn four_streams_of_four_layers_are_read() {
    let streams = full();
    for current in 0..4 {
        let layers = read(&bytes_of(current, &streams)).unwrap();
        assert_eq!(layers.current(), usize::from(current));
        let found: Vec<Vec<Given>> = layers
            .streams()
            .iter()
            .map(|it| it.layers().iter().map(given).collect())
            .collect();
        assert_eq!(found, streams);
    }
}

#[test]
fn there_are_one_to_four_streams_and_layers() {
    for count in 1..=4 {
        for depth in 1..=4 {
            let streams: Vec<Vec<Given>> = full()[..count]
                .iter()
                .map(|layers| layers[..depth].to_vec())
                .collect();
            let layers = read(&bytes_of(0, &streams)).unwrap();
            let found: Vec<Vec<Given>> = layers
                .streams()
                .iter()
                .map(|it| it.layers().iter().map(given).collect())
                .collect();
            assert_eq!(found, streams);
        }
    }
}

#[test]
fn layers_may_be_inactive_and_resolutions_absent() {
    let off = (vec![], None);
    let streams = vec![
        vec![off.clone(), (vec![300, 500], Some((640, 360, 30)))],
        vec![(vec![7], Some((1_280, 720, 60)))],
        vec![(vec![8], None), off.clone(), off, (vec![90, 91, 92], None)],
    ];
    let layers = read(&bytes_of(2, &streams)).unwrap();
    let found: Vec<Vec<Given>> = layers
        .streams()
        .iter()
        .map(|it| it.layers().iter().map(given).collect())
        .collect();
    assert_eq!((layers.current(), found), (2, streams));
}

#[test]
fn nothing_may_be_sent() {
    let layers = read(&[0]).unwrap();
    assert_eq!((layers.current(), layers.streams().len()), (0, 0));
    assert_eq!(layers, Layers::default());
    assert_eq!(read(&[]), None);
    assert_eq!(read(&[0x01]), None); // cut short
    assert_ne!(read(&[0x01, 0, 5]), read(&[0x01, 0, 6]));
}

#[test]
fn allocations_differ_in_each_number() {
    let same = read(&bytes_of(1, &full())).unwrap();
    assert_eq!(Some(same), read(&bytes_of(1, &full())));
    assert_ne!(Some(same), read(&bytes_of(2, &full())));
    let changes: [fn(&mut Vec<Vec<Given>>); 7] = [
        |streams| streams[3][3].0[3] += 1,
        |streams| streams[0][1].0.push(7),
        |streams| streams[1][2].1 = Some((1, 2, 3)),
        |streams| streams[2][0].1.as_mut().unwrap().0 += 1,
        |streams| streams[2][1].1.as_mut().unwrap().1 += 1,
        |streams| streams[2][2].1.as_mut().unwrap().2 += 1,
        |streams| streams[3][3].1 = None,
    ];
    for (index, change) in changes.into_iter().enumerate() {
        let mut streams = full();
        change(&mut streams);
        let other = read(&bytes_of(1, &streams)).unwrap();
        assert_ne!(same, other, "{index}");
        let pairs = same.streams().iter().zip(other.streams());
        assert_eq!(pairs.filter(|(one, other)| one != other).count(), 1);
        let layers = |it: &Layers| -> Vec<Layer> {
            it.streams()
                .iter()
                .flat_map(|stream| stream.layers().to_vec())
                .collect()
        };
        let (one, other) = (layers(&same), layers(&other));
        let pairs = || one.iter().zip(&other);
        assert_eq!(pairs().filter(|(one, other)| one != other).count(), 1);
        let differs = pairs().any(|(one, other)| one.resolution() != other.resolution());
        assert_eq!(differs, index > 1);
    }
}

/// The layers that are given, made anew.
fn made(current: u8, streams: &[Vec<Given>]) -> Layers {
    let layer = |(rates, resolution): &Given| {
        let resolution = resolution.map(|(width, height, framerate)| Resolution {
            width,
            height,
            framerate,
        });
        Layer::new(rates, resolution).unwrap()
    };
    let stream = |layers: &Vec<Given>| {
        let layers: Vec<Layer> = layers.iter().map(layer).collect();
        Stream::new(&layers).unwrap()
    };
    let streams: Vec<Stream> = streams.iter().map(stream).collect();
    Layers::new(current, &streams).unwrap()
}

/// The block that is written with them.
fn written(layers: &Layers, map: &Map) -> Result<Vec<u8>, NotWritten> {
    let mut header = Header::default();
    header.has_extension = true;
    let mut buf = [0xEE; 700];
    let written = header.write_with_layers(&mut buf, map, layers);
    assert_eq!(header.wire_len_with_layers(map, layers), written);
    let len = written?;
    assert!(buf[len..].iter().all(|byte| *byte == 0xEE));
    let short = header.write_with_layers(&mut buf[..len - 1], map, layers);
    assert_eq!(short, Err(NotWritten::ShortBuffer));
    Ok(buf[12..len].to_vec())
}

/// The block with these bytes as the element 77.
fn block(allocation: &[u8]) -> Vec<u8> {
    let words = (allocation.len() + 2).div_ceil(4);
    let mut bytes = vec![0x10, 0, 0, words as u8, 77, allocation.len() as u8];
    bytes.extend_from_slice(allocation);
    bytes.resize(4 + 4 * words, 0);
    bytes
}

#[test]
fn what_was_read_is_written_again() {
    let rows: [&[u8]; 4] = [
        &[0x51, 0, 5, 0xAC, 2, 2, 127, 1, 103, 30], // two streams, whose mask is shared
        &[0x20, 0x12, 0x4F, 0, 5, 6, 7],            // three of other masks: the spare half is 15
        &[0x01, 0, 5],
        &[0],
    ];
    for row in rows {
        assert_eq!(written(&read(row).unwrap(), &MAP), Ok(block(row)));
    }
    // a mask that needn't stand by itself
    let layers = read(&[0x00, 0x60, 0x40, 5, 6, 7]).unwrap();
    assert_eq!(written(&layers, &MAP), Ok(block(&[0x06, 0x40, 5, 6, 7])));
    let empty = vec![0xBE, 0xDE, 0, 0];
    assert_eq!(written(&layers, &Map::standard()), Ok(empty));
}

#[test]
fn layers_are_made_and_written() {
    for count in 1..=4 {
        for depth in 1..=4 {
            let streams: Vec<Vec<Given>> = full()[..count]
                .iter()
                .map(|layers| layers[..depth].to_vec())
                .collect();
            let current = depth as u8 - 1;
            let layers = made(current, &streams);
            assert_eq!(read(&bytes_of(current, &streams)), Some(layers));
            let again = written(&layers, &MAP).unwrap();
            assert_eq!(read(&again[6..][..usize::from(again[5])]), Some(layers));
        }
    }
    // layers at the end of a stream that aren't active go
    let off = (vec![], None);
    let layers = made(0, &[vec![off.clone(), (vec![5], None), off.clone(), off]]);
    assert_eq!(written(&layers, &MAP), Ok(block(&[0x02, 0, 5])));
    assert_eq!(made(0, &[]), Layers::default());
}

#[test]
fn what_no_element_can_carry_is_refused() {
    let refused = |current, streams: &[Vec<Given>]| {
        let layers = made(current, streams);
        for map in [MAP, Map::new()] {
            assert_eq!(written(&layers, &map), Err(NotWritten::BadField));
        }
    };
    let size = |width, height| Some((width, height, 30));
    refused(1, &[]);
    refused(4, &[vec![(vec![5], None)]]);
    refused(0, &[vec![(vec![1 << 63], None)]]);
    refused(0, &[vec![(vec![5], size(0, 1))]]);
    refused(0, &[vec![(vec![5], size(1, 0))]]);
    refused(0, &[vec![(vec![], size(1, 1))]]);
    refused(0, &[vec![(vec![5], None), (vec![5], size(1, 1))]]);
    let rates = vec![u64::MAX >> 1; 4]; // nine bytes each: 16 layers have 576
    refused(0, &vec![vec![(rates, None); 4]; 4]);

    // what is given is told
    assert_eq!(Layers::new(255, &[]).unwrap().current(), 255);
    assert_eq!(Layer::new(&[0; 5], None), Err(TooManyLayers));
    assert_eq!(Stream::new(&[Layer::default(); 5]), Err(TooManyLayers));
    assert_eq!(Layers::new(0, &[Stream::default(); 5]), Err(TooManyLayers));
    for wanted in [
        (vec![], size(640, 360)),
        (vec![5], size(0, 0)),
        (vec![], None),
    ] {
        let layers = made(0, &[vec![wanted.clone()]]);
        assert_eq!(given(&layers.streams()[0].layers()[0]), wanted);
    }
}

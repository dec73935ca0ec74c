//! A packet's header for each of its receivers beside what the calls for one packet make of a copy, one after another.

use rtp_wire::{
    change_form, compact, put_element, to_retransmission, Fields, Form, Group, HeaderTemplate,
    NewIds, NotPut, NotRouted, NotWritten, Packet, PacketMut, Place, RoutedSlot,
};

const NO_FIELDS: Fields = Fields {
    marker: None,
    payload_type: None,
    sequence_number: None,
    timestamp: None,
    ssrc: None,
};
const FORMS: [Option<Form>; 4] = [None, None, Some(Form::OneByte), Some(Form::TwoByte)];

struct Random(u32);

impl Random {
    fn below(&mut self, end: usize) -> usize {
        self.0 = self.0.wrapping_mul(1_664_525).wrapping_add(1_013_904_223);
        (self.0 >> 8) as usize % end
    }

    fn one_in(&mut self, count: usize) -> bool {
        self.below(count) == 0
    }

    fn bytes(&mut self, count: usize) -> Vec<u8> {
        (0..count).map(|_| self.below(256) as u8).collect()
    }

    /// A packet without a block, or with one of any form.
    fn packet(&mut self) -> Vec<u8> {
        let sources = self.below(4);
        let mut packet = self.bytes(12 + 4 * sources);
        packet[0] = 0x80 | sources as u8;
        let form = self.below(4);
        if form != 0 {
            let mut body = Vec::new();
            for _ in 0..self.below(6) {
                let (id, len) = (1 + self.below(14) as u8, 1 + self.below(5));
                match form {
                    1 => body.push(id << 4 | (len - 1) as u8),
                    _ => body.extend([id, len as u8]),
                }
                body.extend(self.bytes(len));
                if self.one_in(4) {
                    body.push(0);
                }
            }
            body.resize(body.len().div_ceil(4) * 4 + 4 * self.below(3), 0);
            packet[0] |= 0x10;
            let profile: u16 = [0xBEDE, 0x1000 | self.below(16) as u16, 0xABAC][form - 1];
            packet.extend(profile.to_be_bytes());
            packet.extend((body.len() as u16 / 4).to_be_bytes());
            packet.extend(body);
        }
        let payload_len = self.below(3);
        packet.extend(self.bytes(payload_len));
        if self.one_in(3) {
            let padding = 1 + self.below(5);
            packet[0] |= 0x20;
            packet.resize(packet.len() + padding, padding as u8);
        }
        packet
    }

    /// A place below the end or near it, or far behind it.
    fn place(&mut self, end: usize) -> usize {
        match self.below(20) {
            0 => usize::MAX - self.below(30),
            1 => (1 << 32) + self.below(30),
            _ => self.below(end + 2),
        }
    }

    /// Where a receiver gets a retransmission, the number of what it repeats.
    fn original_number(&mut self) -> Option<u16> {
        self.one_in(3).then(|| match self.below(4) {
            0 => 0,
            1 => 65_535,
            _ => self.below(1 << 16) as u16,
        })
    }

    /// New ids of which most elements have one, and few are above 14.
    fn ids(&mut self) -> NewIds {
        (1..=14).fold(NewIds::new(), |ids, id| match self.below(30) {
            0..6 => ids,
            6 => ids.with(id, 15 + self.below(241) as u8),
            _ => ids.with(id, 1 + self.below(14) as u8),
        })
    }

    fn elements(&mut self, data_len: usize) -> Vec<Place> {
        let count = self.below(5);
        let mut element = |_| {
            let id = match self.below(32) {
                0 => 0,
                1..4 => self.below(256),
                _ => 1 + self.below(14),
            };
            let len = if self.one_in(10) {
                self.below(20)
            } else {
                1 + self.below(4)
            };
            let at = self.below(data_len - len);
            Place::new(id as u8, at..at + len)
        };
        (0..count).map(&mut element).collect()
    }

    fn fields(&mut self) -> Fields {
        Fields {
            marker: self.one_in(2).then(|| self.one_in(2)),
            payload_type: self.one_in(2).then(|| {
                let end = if self.one_in(9) { 256 } else { 128 };
                self.below(end) as u8
            }),
            sequence_number: self.one_in(2).then(|| self.below(1 << 16) as u16),
            timestamp: self.one_in(2).then(|| self.below(1 << 24) as u32 * 255),
            ssrc: self.one_in(2).then(|| self.below(1 << 24) as u32 * 253),
        }
    }
}

/// What the calls for one packet make of a copy of the header in so many bytes, where each element has the next of these
/// data.
fn by_calls(
    packet: &[u8],
    group: &Group,
    fields: &Fields,
    data: &[u8],
    room: usize,
) -> Result<Vec<u8>, NotRouted> {
    let elements = group.elements;
    for (at, it) in elements.iter().enumerate() {
        if elements[..at].iter().any(|before| before.id() == it.id()) {
            return Err(NotRouted::RepeatedId);
        }
    }
    let header = &packet[..Packet::parse(packet).unwrap().header_len()];
    let mut buf = vec![0; room];
    let mut len = header.len();
    let short = NotRouted::NotPut(NotPut::ShortBuffer);
    buf.get_mut(..len).ok_or(short)?.copy_from_slice(header);
    let mut changed = PacketMut::parse(&mut buf[..len]).unwrap();
    changed.set_fields(fields).unwrap();
    if changed.renumber(group.ids).is_err() {
        if group.allowed == Some(Form::OneByte) {
            return Err(NotRouted::LongId);
        }
        len = change_form(&mut buf, len, Form::TwoByte).map_err(NotRouted::NotPut)?;
        let mut changed = PacketMut::parse(&mut buf[..len]).unwrap();
        changed.renumber(group.ids).unwrap();
    }
    let mut left = data;
    for it in elements {
        let (its_data, rest) = left.split_at(it.data().len());
        left = rest;
        len = put_element(&mut buf, len, it.id(), its_data, group.allowed).map_err(|cause| {
            match cause {
                NotPut::LongId => NotRouted::LongId,
                other => NotRouted::NotPut(other),
            }
        })?;
    }
    assert_eq!(left, [0; 0]);
    len = compact(&mut buf[..len]).unwrap();
    buf.truncate(len);
    Ok(buf)
}

/// What `by_calls` makes, and then `to_retransmission` of that and the payload, up to what is left of the payload.
fn sent_again(
    packet: &[u8],
    group: &Group,
    fields: &Fields,
    original_number: u16,
    data: &[u8],
) -> Vec<u8> {
    let read = Packet::parse(packet).unwrap();
    let got = Fields {
        sequence_number: Some(original_number),
        ..*fields
    };
    let header = by_calls(packet, group, &got, data, 800).unwrap();
    let mut buf = [&header, &packet[read.header_len()..], &[0; 2]].concat();
    let len = buf.len() - 2;
    let each_its_own = (1..=255).fold(NewIds::new(), |ids, id| ids.with(id, id));
    let end = to_retransmission(
        &mut buf,
        len,
        fields.ssrc.unwrap_or(read.ssrc()),
        fields.payload_type.unwrap_or(read.payload_type()),
        fields.sequence_number.unwrap_or(read.sequence_number()),
        &each_its_own,
    )
    .unwrap();
    let (again, payload) = buf[..end].split_at(header.len() + 2);
    assert_eq!(payload, read.unpadded_payload().unwrap());
    again.to_vec()
}

/// One of the receivers of a group, and where it gets a retransmission the number of what that repeats.
struct Receiver {
    fields: Fields,
    original_number: Option<u16>,
    data_at: usize,
}

impl Receiver {
    fn slot(&self) -> RoutedSlot {
        match self.original_number {
            None => RoutedSlot::new(&self.fields, self.data_at),
            Some(number) => RoutedSlot::retransmission(&self.fields, number, self.data_at),
        }
    }

    /// Its header alone, at the front of the buffer.
    fn write(
        &self,
        template: &HeaderTemplate,
        data: &[u8],
        buf: &mut [u8],
    ) -> Result<usize, NotWritten> {
        match self.original_number {
            None => template.write_header(&self.fields, data, buf),
            Some(number) => template.write_retransmission(&self.fields, number, data, buf),
        }
    }
}

#[test]
fn each_is_what_the_calls_for_one_packet_make() {
    let mut random = Random(7);
    let (mut causes, mut templates, mut again) = (Vec::new(), 0, 0);
    for _ in 0..4000 {
        let packet = random.packet();
        let (ids, data) = (random.ids(), random.bytes(40));
        let elements = random.elements(data.len());
        let group = Group {
            ids: &ids,
            data: &data,
            elements: &elements,
            allowed: FORMS[random.below(4)],
        };
        let room = if random.one_in(3) {
            12 + random.below(60)
        } else {
            800
        };
        let joined: Vec<u8> = elements
            .iter()
            .flat_map(|it| data[it.data()].to_vec())
            .collect();
        let wanted = by_calls(&packet, &group, &NO_FIELDS, &joined, room);
        let mut buf = vec![0xEE; room];
        let made = HeaderTemplate::new(&Packet::parse(&packet).unwrap(), &group, &mut buf);
        assert_eq!(
            made.map(|it| it.header().to_vec()),
            wanted,
            "{packet:X?} {group:?}"
        );
        let Ok(template) = made else {
            causes.extend(made.err());
            continue;
        };
        templates += 1;
        assert_eq!(template.data_len(), joined.len());
        let (count, header_len) = (random.below(6), template.header_len());
        let data = random.bytes(joined.len() * count);
        let mut receiver = |n: usize| Receiver {
            fields: random.fields(),
            original_number: random.original_number(),
            data_at: n * joined.len(),
        };
        let receivers: Vec<_> = (0..count).map(&mut receiver).collect();
        let mut slots: Vec<_> = receivers.iter().map(Receiver::slot).collect();
        let mut buf = vec![0xEE; count * (header_len + 2)];
        let headers = template.write_headers(&data, &mut slots, &mut buf);
        for (header, receiver) in headers.zip(&receivers) {
            let fields = &receiver.fields;
            let its_data = &data[receiver.data_at..][..joined.len()];
            let mut alone = vec![0xEE; header_len + 2];
            let written = receiver.write(&template, its_data, &mut alone);
            if fields.payload_type.is_some_and(|it| it > 127) {
                assert_eq!(
                    (header, written),
                    (Err(NotWritten::BadField), Err(NotWritten::BadField))
                );
                continue;
            }
            let mut wanted = match receiver.original_number {
                None => by_calls(&packet, &group, fields, its_data, 800).unwrap(),
                Some(number) => sent_again(&packet, &group, fields, number, its_data),
            };
            assert_eq!((header, written), (Ok(&wanted[..]), Ok(wanted.len())));
            again += usize::from(receiver.original_number.is_some());
            wanted.resize(header_len + 2, 0xEE);
            assert_eq!(alone, wanted);
        }
    }
    // most were made, and all that can come were among the causes
    assert!(templates > 1500 && again > 1000, "{templates} {again}");
    let not_put = NotRouted::NotPut;
    for cause in [
        NotRouted::RepeatedId,
        NotRouted::LongId,
        not_put(NotPut::BadId),
        not_put(NotPut::FormNotAllowed),
        not_put(NotPut::OtherForm),
        not_put(NotPut::ShortBuffer),
    ] {
        assert!(causes.contains(&cause), "{cause:?}");
    }
}

#[test]
fn any_fields_data_and_room() {
    let mut random = Random(11);
    let ids = NewIds::new().with(1, 3);
    let packet = [
        0x90, 96, 0, 5, 0, 0, 0, 100, 0, 0, 0, 44, 0xBE, 0xDE, 0, 1, 0x10, 0xAA, 0, 0,
    ];
    let elements = [Place::new(4, 0..2), Place::new(9, 2..5)];
    let group = Group {
        ids: &ids,
        data: &[0; 5],
        elements: &elements,
        allowed: None,
    };
    let mut room = [0; 600];
    let made = HeaderTemplate::new(&Packet::parse(&packet).unwrap(), &group, &mut room).unwrap();
    for _ in 0..2000 {
        let (data_len, room) = (random.below(40), random.below(120));
        let data = random.bytes(data_len);
        let mut receiver = |_| Receiver {
            fields: random.fields(),
            original_number: random.original_number(),
            data_at: random.place(data_len),
        };
        let receivers: Vec<_> = (0..6).map(&mut receiver).collect();
        let mut slots: Vec<_> = receivers.iter().map(Receiver::slot).collect();
        let mut buf = vec![0xEE; room];
        // each of them alone, behind those before it
        let (mut wanted, mut end) = (buf.clone(), 0);
        let mut one = |it: &Receiver| {
            let its_data = data.get(it.data_at..).and_then(|it| it.get(..5));
            let its_data = its_data.ok_or(NotWritten::BadField)?;
            if it.fields.payload_type.is_some_and(|it| it > 127) {
                return Err(NotWritten::BadField);
            }
            let len = it.write(&made, its_data, &mut wanted[end..])?;
            end += len;
            Ok(end - len..end)
        };
        let results: Vec<_> = receivers.iter().map(&mut one).collect();
        let headers = made.write_headers(&data, &mut slots, &mut buf);
        let due = results.iter().map(|it| it.clone().map(|at| &wanted[at]));
        assert!(headers.eq(due));
        assert_eq!(buf, wanted);
        assert!(slots.iter().map(RoutedSlot::range).eq(results));
    }
}

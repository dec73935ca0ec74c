use crate::error::TooManyLayers;

/// A spatial layer of a [`Stream`].
pub use crate::views::Layer;
/// Which simulcast streams and layers a sender of video keeps active (`video-layers-allocation00`).
pub use crate::views::Layers;
/// A simulcast stream of a [`Layers`].
pub use crate::views::Stream;

/// The resolution and the frame rate of a [`Layer`].
#[derive(Clone, Copy, Debug, PartialEq, Eq, Hash)]
pub struct Resolution {
    /// In pixels, 1 to 65,535.
    pub width: u16,
    /// In pixels, 1 to 65,535.
    pub height: u16,
    /// The highest frame rate, in frames per second.
    pub framerate: u8,
}

/// The items and then defaults, and how many items there are.
fn four<T: Copy + Default>(items: &[T]) -> Result<([T; 4], u8), TooManyLayers> {
    let mut all = [T::default(); 4];
    let used = all.get_mut(..items.len());
    used.ok_or(TooManyLayers)?.copy_from_slice(items);
    Ok((all, items.len() as u8)) // at most 4
}

impl Layers {
    /// The allocation of a packet that is of the stream `current`, counted from 0.
    ///
    /// # Errors
    ///
    /// [`TooManyLayers`] where there are more than 4 streams. What else can't be written
    /// [`Header::write_with_layers`](crate::Header::write_with_layers) tells.
    pub fn new(current: u8, streams: &[Stream]) -> Result<Layers, TooManyLayers> {
        let (streams, count) = four(streams)?;
        Ok(Layers {
            streams,
            count,
            current,
        })
    }

    /// Which of the streams the packet is of, from 0.
    #[must_use]
    pub fn current(&self) -> usize {
        usize::from(self.current)
    }

    /// The streams, at most 4: none where nothing is sent.
    #[must_use]
    pub fn streams(&self) -> &[Stream] {
        &self.streams[..usize::from(self.count)]
    }
}

impl Stream {
    /// The stream of these spatial layers, by rising resolution.
    ///
    /// # Errors
    ///
    /// [`TooManyLayers`] where there are more than 4.
    pub fn new(layers: &[Layer]) -> Result<Stream, TooManyLayers> {
        let (layers, count) = four(layers)?;
        Ok(Stream { layers, count })
    }

    /// The spatial layers by rising resolution, at most 4.
    #[must_use]
    pub fn layers(&self) -> &[Layer] {
        &self.layers[..usize::from(self.count)]
    }
}

impl Layer {
    /// The layer of these rates, of each temporal layer with those below it, in kilobits per second: none
    /// where the layer isn't active.
    ///
    /// # Errors
    ///
    /// [`TooManyLayers`] where there are more than 4.
    pub fn new(kbps: &[u64], resolution: Option<Resolution>) -> Result<Layer, TooManyLayers> {
        let (kbps, rates) = four(kbps)?;
        let mut layer = Layer {
            kbps,
            rates,
            ..Layer::default()
        };
        if let Some(it) = resolution {
            layer.has_resolution = 1;
            layer.width = it.width;
            layer.height = it.height;
            layer.framerate = it.framerate;
        }
        Ok(layer)
    }

    /// The rate of each temporal layer with those below it, in kilobits per second, at most 4: none
    /// where the layer isn't active.
    #[must_use]
    pub fn kbps(&self) -> &[u64] {
        &self.kbps[..usize::from(self.rates)]
    }

    /// The resolution, where the sender tells it.
    #[must_use]
    pub fn resolution(&self) -> Option<Resolution> {
        (self.has_resolution != 0).then_some(Resolution {
            width: self.width,
            height: self.height,
            framerate: self.framerate,
        })
    }
}

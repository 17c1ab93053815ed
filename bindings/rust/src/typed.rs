//! Values of several types in one store.
use crate::kept::StoreValue;
use crate::lane::Lane;
use crate::refusal::{ComputeError, GetError, Refusal};
use crate::store::Key;
use std::any::{Any, TypeId};
use std::error::Error;
use std::marker::PhantomData;
use std::sync::Arc;

/// What a factory of an [`AnyResource`] answers that fails, and a close.
pub type AnyFault = Box<dyn Error + Send + Sync>;

/// What may stand in a store of values of any type.
pub trait Resource: Any + Send + Sync {
    /// What is done when the context is closed in which it stands; nothing, unless it says otherwise.
    ///
    /// # Errors
    ///
    /// Whatever fails.
    fn close(&self) -> Result<(), AnyFault> {
        Ok(())
    }
}

/// A value of any type: what a store has of whose keys each has a type of its own ([`TypedKey`]), so that no enum of all types is needed.
///
/// ```
/// use extension_store::{AnyFault, AnyResource, Limits, Resource, Store};
///
/// struct Port(u16);
/// impl Resource for Port {}
///
/// struct Name(&'static str);
/// impl Resource for Name {
///     fn close(&self) -> Result<(), AnyFault> {
///         Ok(println!("{} is closed", self.0))
///     }
/// }
///
/// let (_store, mut lanes, closers) = Store::<AnyResource>::open(&["[engine:x]"], Limits::default())?;
/// let lane = &mut lanes[0];
/// let port = lane.typed_key::<Port>(&["web"], "main")?;
/// let name = lane.typed_key::<Name>(&["web"], "main")?;
/// assert_eq!(lane.compute_typed(0, &port, || Ok(Port(8080)))?.0, 8080);
/// assert_eq!(lane.compute_typed(0, &name, || Ok(Name("x")))?.0, "x");
/// assert_eq!(lane.get_typed(0, &port)?.map(|it| it.0), Some(8080));
/// for closer in closers {
///     closer.close(|it| it.close()).into_iter().collect::<Result<(), AnyFault>>()?;
/// }
/// # Ok::<(), AnyFault>(())
/// ```
pub struct AnyResource {
    value: Arc<dyn Any + Send + Sync>,
    close: fn(&(dyn Any + Send + Sync)) -> Result<(), AnyFault>,
}

impl AnyResource {
    /// The value, for a call that takes no [`TypedKey`].
    pub fn new<T: Resource>(value: T) -> AnyResource {
        AnyResource {
            value: Arc::new(value),
            close: |it| it.downcast_ref::<T>().map_or(Ok(()), T::close),
        }
    }

    /// The value; `None` where it is of another type.
    pub fn value<T: Resource>(&self) -> Option<Arc<T>> {
        Arc::clone(&self.value).downcast().ok()
    }

    /// Closes it as its type does: for the close action of a context.
    ///
    /// # Errors
    ///
    /// Those of its type.
    pub fn close(&self) -> Result<(), AnyFault> {
        (self.close)(&*self.value)
    }
}

impl StoreValue for AnyResource {
    type Fault = AnyFault;

    fn closeable(&self) -> bool {
        true
    }
}

/// A key of values of one type. Keys of other types are other keys, whatever their names.
pub struct TypedKey<T> {
    key: Key,
    of: PhantomData<fn() -> T>,
}

impl<T> TypedKey<T> {
    /// The key, for a call that takes no type.
    pub fn key(&self) -> &Key {
        &self.key
    }

    fn value(&self, stands: &AnyResource) -> Arc<T>
    where
        T: Resource,
    {
        stands
            .value()
            .expect("a value of another type was put under the key of this one")
    }
}

impl<T> Clone for TypedKey<T> {
    fn clone(&self) -> Self {
        *self
    }
}

impl<T> Copy for TypedKey<T> {}

impl Lane<AnyResource> {
    /// [`key`](Lane::key), of a type.
    ///
    /// # Errors
    ///
    /// Those of `key`.
    pub fn typed_key<T: Resource>(
        &mut self,
        namespace: &[&str],
        name: &str,
    ) -> Result<TypedKey<T>, Refusal> {
        // Two types may have one name.
        let of_type = format!("{:?}", TypeId::of::<T>());
        let parts: Vec<&str> = namespace.iter().copied().chain([&*of_type]).collect();
        let key = self.key(&parts, name)?;
        let of = PhantomData;
        Ok(TypedKey { key, of })
    }

    /// [`get`](Lane::get), of a type.
    ///
    /// # Errors
    ///
    /// Those of `get`.
    ///
    /// # Panics
    ///
    /// Where a call that takes no type has put a value of another one under the key; so does [`compute_typed`](Lane::compute_typed).
    pub fn get_typed<T: Resource>(
        &mut self,
        context: usize,
        key: &TypedKey<T>,
    ) -> Result<Option<Arc<T>>, GetError<AnyResource>> {
        let found = self.get(context, &key.key)?;
        Ok(found.map(|it| key.value(&it)))
    }

    /// [`compute`](Lane::compute), of a type.
    ///
    /// # Errors
    ///
    /// Those of `compute`.
    pub fn compute_typed<T: Resource>(
        &mut self,
        context: usize,
        key: &TypedKey<T>,
        factory: impl FnOnce() -> Result<T, AnyFault>,
    ) -> Result<Arc<T>, ComputeError<AnyResource>> {
        let made = || factory().map(AnyResource::new);
        Ok(key.value(&*self.compute(context, &key.key, made)?))
    }
}

// Noblit has no pages of 8192 bytes. Its trait is public, so the size is stated here, and noblit stays unchanged. To be included where
// the PageSize of the build of noblit that it is for is in scope.
struct PageSize8192;

impl PageSize for PageSize8192 {
    const SIZE: usize = 8192;
    const CAPACITY: usize = 204;

    fn new() -> PageSize8192 {
        PageSize8192
    }
}

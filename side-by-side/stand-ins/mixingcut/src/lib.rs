//! Stands in for mixingcut, which the text names in `convex_symmetric_form_sdp` alone. The driver never calls it.

pub mod sdp_solver {
    use ndarray::Array1;
    use sprs::CsMat;

    pub fn compute_approx_perturbation(
        _q: &CsMat<f64>,
        _rank: Option<usize>,
        _a: Option<usize>,
        _b: Option<f64>,
        _c: Option<f64>,
        _d: Option<f64>,
        _verbose: bool,
    ) -> Array1<f64> {
        unimplemented!("the driver solves no relaxation")
    }
}

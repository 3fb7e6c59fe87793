.class public interface abstract La/I;
.super Ljava/lang/Object;
.implements La/J;
